/* SPDX-License-Identifier: MIT */
/*
 * matching.c
 *		semver_matches: whether a version, also one that is text, matches a
 *		range, by any grammar.
 */
#include "postgres.h"

#include "deno_semver.h"

#include "nodes/primnodes.h"
#include "utils/builtins.h"
#include "utils/memutils.h"

/*
 * The range of the last call, and the arguments that it was parsed from, if it
 * was.  Others are parsed anew, and constants never differ.
 */
typedef struct
{
	semver_req	req;
	text	   *range;
	text	   *grammar;
	bool		is_constant;
	MemoryContextCallback callback;
} kept_range;

static void
free_kept(void *it)
{
	semver_req_free(&((kept_range *) it)->req);
}

/*
 * A parameter isn't: PL/pgSQL evaluates an expression again with another one.
 */
static bool
is_constant(const FmgrInfo *function, int argument)
{
	const Node *call = function->fn_expr;

	return call != NULL && IsA(call, FuncExpr) &&
		IsA(list_nth(((const FuncExpr *) call)->args, argument), Const);
}

/*
 * What a call keeps for the next one.  It is freed with the context of the
 * function, also where an error ends the query.
 */
static kept_range *
kept_by(FmgrInfo *function)
{
	if (function->fn_extra == NULL)
	{
		kept_range *it = MemoryContextAllocZero(function->fn_mcxt, sizeof(*it));

		it->is_constant = is_constant(function, 0) && is_constant(function, 3);
		it->callback.func = free_kept;
		it->callback.arg = it;
		MemoryContextRegisterResetCallback(function->fn_mcxt, &it->callback);
		function->fn_extra = it;
	}
	return function->fn_extra;
}

static bool
is_same(const text *one, const text *other)
{
	size_t		size = VARSIZE_ANY_EXHDR(one);

	return size == VARSIZE_ANY_EXHDR(other) &&
		memcmp(VARDATA_ANY(one), VARDATA_ANY(other), size) == 0;
}

static text *
copy_into(MemoryContext context, const text *string)
{
	return memcpy(MemoryContextAlloc(context, VARSIZE_ANY(string)), string,
				  VARSIZE_ANY(string));
}

static void
keep(kept_range *it, MemoryContext context, const text *range,
	 const text *grammar)
{
	uint32_t	number = sv_grammar(grammar);
	sv_string	utf8 = sv_utf8_of(range);
	char		none[1];
	size_t		needed;
	int32_t		code;

	sv_is_long_range(NULL, utf8);
	if (it->range != NULL)
	{
		pfree(it->range);
		it->range = NULL;
	}
	if (it->grammar != NULL)
	{
		pfree(it->grammar);
		it->grammar = NULL;
	}
	code = semver_req_read(number, SV_BYTES(utf8), &it->req, none, 0, &needed);
	if (code == SEMVER_YES && semver_req_is_tag(&it->req) == SEMVER_YES)
		code = SEMVER_TAG;
	if (code != SEMVER_YES)
		sv_reject_range(NULL, number, utf8, code);
	it->grammar = copy_into(context, grammar);
	it->range = copy_into(context, range);
}

/*
 * The arguments behind the range and the version are whether pre-releases match
 * throughout, and the name of a grammar.
 */
static Datum
matches(FunctionCallInfo fcinfo, sv_string version)
{
	kept_range *it = kept_by(fcinfo->flinfo);
	int32_t		code;

	if (it->range == NULL || !it->is_constant)
	{
		text	   *range = PG_GETARG_TEXT_PP(0);
		text	   *grammar = PG_GETARG_TEXT_PP(3);

		if (it->range == NULL || !is_same(it->range, range) ||
			!is_same(it->grammar, grammar))
			keep(it, fcinfo->flinfo->fn_mcxt, range, grammar);
	}
	code = semver_req_fits(&it->req, SV_BYTES(version),
						   PG_GETARG_BOOL(2) ? SEMVER_ADMITTED : SEMVER_RESTRICTED);
	if (code < 0)
		sv_reject_version(NULL, version, code);
	PG_RETURN_BOOL(code == SEMVER_YES);
}

PG_FUNCTION_INFO_V1(deno_semver_matches);
Datum
deno_semver_matches(PG_FUNCTION_ARGS)
{
	return matches(fcinfo, sv_version_string(PG_GETARG_VARLENA_PP(1)));
}

PG_FUNCTION_INFO_V1(deno_semver_matches_text);
Datum
deno_semver_matches_text(PG_FUNCTION_ARGS)
{
	sv_string	version = sv_utf8_of(PG_GETARG_TEXT_PP(1));

	sv_is_long_version(NULL, version);
	return matches(fcinfo, version);
}
