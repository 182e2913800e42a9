/* SPDX-License-Identifier: MIT */
/*
 * planning.c
 *		What the planner is told of `version <@ range`: between which bounds an
 *		index is scanned.
 */
#include "postgres.h"

#include "deno_semver.h"

#include "access/stratnum.h"
#include "catalog/pg_am_d.h"
#include "catalog/pg_operator_d.h"
#include "catalog/pg_proc_d.h"
#include "catalog/pg_type_d.h"
#include "nodes/makefuncs.h"
#include "nodes/nodeFuncs.h"
#include "nodes/pathnodes.h"
#include "nodes/supportnodes.h"
#include "optimizer/optimizer.h"
#include "utils/builtins.h"
#include "utils/lsyscache.h"
#include "utils/syscache.h"

#define MOST_PIECES 16

/* Bounds of scans that have no version between them and the next ones. */
typedef struct
{
	const char *low;
	const char *high;
} piece;

/*
 * Names are looked up in the schema of the extension's functions, wherever that
 * is.  Who asks needs no rights there.
 */

Oid
sv_type_of(Oid function, const char *name)
{
	return GetSysCacheOid2(TYPENAMENSP, Anum_pg_type_oid,
						   CStringGetDatum(name),
						   ObjectIdGetDatum(get_func_namespace(function)));
}

static Oid
function_of(Oid function, const char *name, const Oid *types, int count)
{
	return GetSysCacheOid3(PROCNAMEARGSNSP, Anum_pg_proc_oid,
						   CStringGetDatum(name),
						   PointerGetDatum(buildoidvector(types, count)),
						   ObjectIdGetDatum(get_func_namespace(function)));
}

static Oid
operator_of(Oid function, const char *name, Oid left, Oid right)
{
	return GetSysCacheOid4(OPERNAMENSP, Anum_pg_operator_oid,
						   CStringGetDatum(name),
						   ObjectIdGetDatum(left),
						   ObjectIdGetDatum(right),
						   ObjectIdGetDatum(get_func_namespace(function)));
}

/* ---- clauses */

static Node *
bound_of(Oid type, const char *key, const char *other,
		 const struct varlena *range)
{
	return (Node *) makeConst(type, -1, InvalidOid, -1,
							  PointerGetDatum(sv_bound(key, other, range)),
							  false, false);
}

static Node *
compare(Oid operator, Node *version, Node *bound)
{
	Expr	   *made = make_opclause(operator, BOOLOID, false, (Expr *) version,
									 (Expr *) bound, InvalidOid, InvalidOid);

	set_opfuncid((OpExpr *) made);
	return (Node *) made;
}

static Node *
call(Oid function, Oid type, List *arguments)
{
	return (Node *) makeFuncExpr(function, type, arguments, InvalidOid,
								 InvalidOid, COERCE_EXPLICIT_CALL);
}

static struct varlena *
range_of(const Node *constant)
{
	return PG_DETOAST_DATUM_PACKED(((const Const *) constant)->constvalue);
}

/*
 * One scan of an index: from the lowest bound of a range to the highest.  Of a
 * parameter, or a column of another table, the bounds are computed for each row
 * of that.
 */
static List *
index_clauses(SupportRequestIndexCondition *request)
{
	List	   *arguments;
	Node	   *version;
	Node	   *range;
	Node	   *low;
	Node	   *high;
	Oid			version_type;
	Oid			range_type;
	Oid			bound;
	Oid			from;
	Oid			below;

	if (IsA(request->node, OpExpr))
		arguments = ((OpExpr *) request->node)->args;
	else if (IsA(request->node, FuncExpr))
		arguments = ((FuncExpr *) request->node)->args;
	else
		return NIL;
	if (list_length(arguments) != 2 || request->index->relam != BTREE_AM_OID)
		return NIL;
	version = list_nth(arguments, request->indexarg);
	range = list_nth(arguments, 1 - request->indexarg);
	version_type = exprType(version);
	range_type = exprType(range);
	bound = sv_type_of(request->funcid, "semver_bound");
	from = get_opfamily_member(request->opfamily, version_type, bound,
							   BTGreaterEqualStrategyNumber);
	below = get_opfamily_member(request->opfamily, version_type, bound,
								BTLessStrategyNumber);
	if (range_type == version_type || !OidIsValid(from) || !OidIsValid(below))
		return NIL;
	if (IsA(range, Const))
	{
		const char *lowest;
		const char *highest;

		if (((Const *) range)->constisnull)
			return NIL;
		sv_hull(range_of(range), &lowest, &highest);
		low = bound_of(bound, lowest, highest, NULL);
		high = bound_of(bound, highest, lowest, NULL);
	}
	else
	{
		Oid			of_low = function_of(request->funcid, "semver_range_low",
										 &range_type, 1);
		Oid			of_high = function_of(request->funcid, "semver_range_high",
										  &range_type, 1);

		if (!is_pseudo_constant_for_index(request->root, range, request->index) ||
			!OidIsValid(of_low) || !OidIsValid(of_high))
			return NIL;
		low = call(of_low, bound, list_make1(copyObject(range)));
		high = call(of_high, bound, list_make1(copyObject(range)));
	}
	request->lossy = true;
	return list_make2(compare(from, version, low),
					  compare(below, version, high));
}

/* ---- several scans: an index condition can't be an OR, so the expression becomes another one */

/*
 * The pieces of a range whose scans leave gaps: at most so many, in ascending
 * order.  None if there are more.
 */
static int
pieces_of(const struct varlena *range, piece *pieces)
{
	sv_scans	scans = sv_scans_of(range);
	uint32_t	release = 0;
	uint32_t	other = scans.releases;
	int			count = 0;

	/*
	 * Releases and pre-releases are each in ascending order.  The lower one
	 * of both comes next.
	 */
	while (release < scans.releases || other < scans.count)
	{
		bool		is_release = other == scans.count ||
			(release < scans.releases &&
			 strcmp(sv_low(&scans, release), sv_low(&scans, other)) <= 0);
		uint32_t	next = is_release ? release++ : other++;
		const char *low = sv_low(&scans, next);
		const char *high = sv_high(&scans, next);

		if (count > 0 && strcmp(low, pieces[count - 1].high) <= 0)
		{
			if (strcmp(high, pieces[count - 1].high) > 0)
				pieces[count - 1].high = high;
			continue;
		}
		if (count == MOST_PIECES)
			return 0;
		pieces[count].low = low;
		pieces[count].high = high;
		count++;
	}
	return count;
}

/*
 * Whether an expression is a column, also one of a domain.  Others stay as they
 * are: what is rewritten has the version several times, and a call such as
 * semver_try, or the check of a domain, may cost more than it saves, or be
 * volatile.  A parameter is in no index.
 */
static bool
is_column(const Node *it)
{
	while (IsA(it, RelabelType))
		it = (const Node *) ((const RelabelType *) it)->arg;
	return IsA(it, Var);
}

/*
 * Of a column and a constant range of several pieces:
 *
 * semver_is_within(version, range) AND (version between the bounds of a piece OR ..)
 *
 * Then the planner may scan an index for each piece, or, for an order, from the
 * first piece to the last.
 *
 * Later the planner moves a NOT down to each operator, and none of them stands
 * for the whole.  So the low bound of the last piece has the range, for estimates.
 */
static Node *
simplify(const FuncExpr *within)
{
	Oid			types[2];
	bool		is_first;
	Node	   *version;
	Node	   *range;
	piece		pieces[MOST_PIECES];
	int			count;
	Oid			bound;
	Oid			from;
	Oid			below;
	Oid			is_within;
	List	   *any = NIL;

	if (list_length(within->args) != 2)
		return NULL;
	types[0] = sv_type_of(within->funcid, "semver");
	types[1] = sv_type_of(within->funcid, "semver_range");
	is_first = exprType(linitial(within->args)) == types[0];
	version = list_nth(within->args, is_first ? 0 : 1);
	range = list_nth(within->args, is_first ? 1 : 0);
	if (!is_column(version) || !IsA(range, Const) ||
		((Const *) range)->constisnull || exprType(range) != types[1])
		return NULL;
	count = pieces_of(range_of(range), pieces);
	if (count < 2)
		return NULL;
	bound = sv_type_of(within->funcid, "semver_bound");
	from = operator_of(within->funcid, ">=", types[0], bound);
	below = operator_of(within->funcid, "<", types[0], bound);
	is_within = function_of(within->funcid, "semver_is_within", types, 2);
	if (!OidIsValid(from) || !OidIsValid(below) || !OidIsValid(is_within))
		return NULL;
	for (int n = 0; n < count; n++)
	{
		bool		is_last = n + 1 == count;
		Node	   *low = compare(from, copyObject(version),
								  bound_of(bound, pieces[n].low, pieces[n].high,
										   is_last ? range_of(range) : NULL));
		Node	   *high = compare(below, copyObject(version),
								   bound_of(bound, pieces[n].high, pieces[n].low,
											NULL));

		any = lappend(any, make_andclause(list_make2(low, high)));
	}
	return (Node *) make_andclause(list_make2(call(is_within, BOOLOID,
												   list_make2(version, range)),
											  make_orclause(any)));
}

PG_FUNCTION_INFO_V1(deno_semver_support);
Datum
deno_semver_support(PG_FUNCTION_ARGS)
{
	Node	   *request = (Node *) PG_GETARG_POINTER(0);

	if (IsA(request, SupportRequestSimplify))
		PG_RETURN_POINTER(simplify(((SupportRequestSimplify *) request)->fcall));
	if (IsA(request, SupportRequestIndexCondition))
		PG_RETURN_POINTER(index_clauses((SupportRequestIndexCondition *) request));
	PG_RETURN_POINTER(NULL);
}

/* Of semver_is_within, which stands beside what has the share of rows already. */
PG_FUNCTION_INFO_V1(deno_semver_is_within_support);
Datum
deno_semver_is_within_support(PG_FUNCTION_ARGS)
{
	Node	   *request = (Node *) PG_GETARG_POINTER(0);

	if (IsA(request, SupportRequestSelectivity))
	{
		((SupportRequestSelectivity *) request)->selectivity = 1;
		PG_RETURN_POINTER(request);
	}
	if (IsA(request, SupportRequestIndexCondition))
		PG_RETURN_POINTER(index_clauses((SupportRequestIndexCondition *) request));
	PG_RETURN_POINTER(NULL);
}
