/* SPDX-License-Identifier: MIT */
/*
 * estimates.c
 *		How many rows the planner expects of `version <@ range`, and between two
 *		bounds.
 *
 * Within a bin of a histogram the planner interpolates the types that it knows.
 * Of others it takes half of the bin below each bound, which leaves nothing
 * between two bounds in one bin.  Here the numbers of the keys are interpolated.
 */
#include "postgres.h"

#include "deno_semver.h"

#include <ctype.h>
#include <math.h>

#include "access/htup_details.h"
#include "catalog/pg_statistic.h"
#include "nodes/pathnodes.h"
#include "utils/lsyscache.h"
#include "utils/selfuncs.h"

/* ---- between two keys */

/* Reads the three numbers of a key; what is behind them. */
static const char *
read_numbers(const char *key, double numbers[3])
{
	for (int n = 0; n < 3; n++)
	{
		int			digits = *key >= 'A' && *key <= 'Z' ? *key++ - 'A' + 1 : 0;

		numbers[n] = 0;
		for (; digits > 0 && *key >= '0' && *key <= '9'; digits--)
			numbers[n] = 10 * numbers[n] + (*key++ - '0');
	}
	return key;
}

/* Numbers from an index on as one: those behind the first are its fraction. */
static double
one_number(const double numbers[3], int from)
{
	double		one = 0;

	for (int n = 2; n >= from; n--)
		one = numbers[n] + one / (one + 10);
	return one;
}

/* The strings behind the numbers of three keys, each as one number. */
static void
read_strings(const char *strings[3], double numbers[3])
{
	double		place = 1;

	for (int n = 0; n < 3; n++)
		numbers[n] = 0;
	for (int at = 0;; at++)
	{
		int			base = 10;

		for (int n = 0; n < 3; n++)
		{
			if (strings[n][at] == 0)
				return;
			if (!isdigit((unsigned char) strings[n][at]))
				base = '~' - ' ';
		}
		place /= base;
		for (int n = 0; n < 3; n++)
			numbers[n] += place * (strings[n][at] - (base == 10 ? '0' : ' '));
	}
}

/*
 * How far it is from a low key to one above, where 1 is how far it is to a high
 * one: by the first number in which the low and the high one differ, or by the
 * strings behind the numbers.
 */
static double
share_of_bin(const char *low, const char *key, const char *high)
{
	double		low_numbers[3];
	double		numbers[3];
	double		high_numbers[3];
	const char *behind[3];
	double		one[3];
	double		share;
	int			n = 0;

	behind[0] = read_numbers(low, low_numbers);
	behind[1] = read_numbers(key, numbers);
	behind[2] = read_numbers(high, high_numbers);
	while (n < 3 && low_numbers[n] == high_numbers[n])
		n++;
	if (n < 3)
	{
		one[0] = one_number(low_numbers, n);
		one[1] = one_number(numbers, n);
		one[2] = one_number(high_numbers, n);
	}
	else
	{
		/* What is the same in all would leave few digits to the rest. */
		while (*behind[0] != 0 && *behind[0] == *behind[1] &&
			   *behind[0] == *behind[2])
		{
			behind[0]++;
			behind[1]++;
			behind[2]++;
		}
		read_strings(behind, one);
	}
	share = one[2] > one[0] ? (one[1] - one[0]) / (one[2] - one[0]) : 0.5;
	CLAMP_PROBABILITY(share);
	return share;
}

/* ---- statistics */

typedef enum
{
	ANY_VERSION,
	RELEASE,
	PRE_RELEASE
} version_kind;

typedef struct
{
	AttStatsSlot common;		/* the most common versions */
	AttStatsSlot histogram;		/* of the others; none if there are no values */
	int		   *releases;		/* how many of its first values are releases */
	double		nulls;			/* the share of rows without a version */
	double		others;			/* with other versions than those */
	double		each;			/* and with one of them */
} statistics;

static sv_string
key_at(const AttStatsSlot *slot, int index)
{
	return sv_key(PG_DETOAST_DATUM_PACKED(slot->values[index]));
}

/*
 * The statistics of a column of versions, if it has some.  They are values of
 * rows, so who may not read each row gets none, unless the operator is
 * leakproof.
 */
static bool
read_statistics(VariableStatData *column, Oid operator, statistics *it)
{
	double		common = 0;
	double		distinct;
	bool		is_default;

	if (!HeapTupleIsValid(column->statsTuple) ||
		!statistic_proc_security_check(column, get_opcode(operator)))
		return false;
	it->nulls = ((Form_pg_statistic) GETSTRUCT(column->statsTuple))->stanullfrac;
	get_attstatsslot(&it->common, column->statsTuple, STATISTIC_KIND_MCV,
					 InvalidOid, ATTSTATSSLOT_VALUES | ATTSTATSSLOT_NUMBERS);
	get_attstatsslot(&it->histogram, column->statsTuple,
					 STATISTIC_KIND_HISTOGRAM, InvalidOid, ATTSTATSSLOT_VALUES);
	/* Statistics that are imported may have fewer numbers than values. */
	it->common.nvalues = Min(it->common.nvalues, it->common.nnumbers);
	for (int n = 0; n < it->common.nnumbers; n++)
		common += it->common.numbers[n];
	it->others = 1 - it->nulls - common;
	CLAMP_PROBABILITY(it->others);
	distinct = get_variable_numdistinct(column, &is_default) - it->common.nvalues;
	it->each = it->others / Max(distinct, 1);
	it->releases = palloc0((it->histogram.nvalues + 1) * sizeof(int));
	for (int n = 0; n < it->histogram.nvalues; n++)
		it->releases[n + 1] = it->releases[n] + !sv_is_pre(key_at(&it->histogram, n));
	return true;
}

static void
free_statistics(statistics *it)
{
	pfree(it->releases);
	free_attstatsslot(&it->common);
	free_attstatsslot(&it->histogram);
}

/* How many values of the histogram are below a bound. */
static int
count_below(const AttStatsSlot *histogram, const char *bound)
{
	int			from = 0;
	int			to = histogram->nvalues;

	while (from < to)
	{
		int			middle = from + (to - from) / 2;

		if (strcmp(key_at(histogram, middle).at, bound) < 0)
			from = middle + 1;
		else
			to = middle;
	}
	return from;
}

/* The share of the histogram that is below a bound. */
static double
share_below(const AttStatsSlot *histogram, const char *bound, int below)
{
	if (below == 0)
		return 0;
	if (below == histogram->nvalues)
		return 1;
	return (below - 1 + share_of_bin(key_at(histogram, below - 1).at, bound,
									 key_at(histogram, below).at)) /
		(histogram->nvalues - 1);
}

/*
 * The share of the histogram between two bounds.  With a kind it counts only
 * releases, or pre-releases: as many as of its values there, or of all values
 * if there are few.
 */
static double
share_between(const statistics *it, const char *low, const char *high,
			  version_kind kind)
{
	const AttStatsSlot *histogram = &it->histogram;
	int			from;
	int			to;
	double		share;
	double		releases;

	if (histogram->nvalues < 2)
		return DEFAULT_MATCHING_SEL;
	from = count_below(histogram, low);
	to = count_below(histogram, high);
	share = share_below(histogram, high, to) - share_below(histogram, low, from);
	CLAMP_PROBABILITY(share);
	if (kind == ANY_VERSION)
		return share;
	if (to - from < 10)
	{
		from = 0;
		to = histogram->nvalues;
	}
	releases = (double) (it->releases[to] - it->releases[from]) / (to - from);
	return share * (kind == RELEASE ? releases : 1 - releases);
}

/* No share of what may be there is below that of one version. */
static double
at_least_one(const statistics *it, double share)
{
	share = Max(share, it->each);
	CLAMP_PROBABILITY(share);
	return share;
}

/* ---- of a constant range */

static bool
is_null(const Node *it)
{
	return IsA(it, Const) && ((const Const *) it)->constisnull;
}

/*
 * Whether it is a constant of this type of the extension, beside a column of
 * versions.  Up to PostgreSQL 15.15 anyone may give an operator of other types
 * this estimator, so the types are those in the estimator's own schema.
 */
static bool
is_constant(FunctionCallInfo fcinfo, const VariableStatData *column,
			const Node *it, const char *type)
{
	Oid			estimator = fcinfo->flinfo->fn_oid;

	return IsA(it, Const) &&
		((const Const *) it)->consttype == sv_type_of(estimator, type) &&
		column->vartype == sv_type_of(estimator, "semver");
}

static struct varlena *
value_of(const Node *constant)
{
	return PG_DETOAST_DATUM_PACKED(((const Const *) constant)->constvalue);
}

static double
matching(const statistics *it, const struct varlena *range)
{
	sv_scans	scans = sv_scans_of(range);
	double		common = 0;
	double		others = 0;

	if (scans.count == 0)
		return 0;
	for (int n = 0; n < it->common.nvalues; n++)
	{
		if (sv_contains(range, PG_DETOAST_DATUM_PACKED(it->common.values[n])))
			common += it->common.numbers[n];
	}
	for (uint32_t n = 0; n < scans.count; n++)
		others += share_between(it, sv_low(&scans, n), sv_high(&scans, n),
								n < scans.releases ? RELEASE : PRE_RELEASE);
	return at_least_one(it, common + it->others * Min(others, 1));
}

/* Of version <@ range, and of range @> version. */
PG_FUNCTION_INFO_V1(deno_semver_within_sel);
Datum
deno_semver_within_sel(PG_FUNCTION_ARGS)
{
	PlannerInfo *root = (PlannerInfo *) PG_GETARG_POINTER(0);
	Oid			operator = PG_GETARG_OID(1);
	List	   *arguments = (List *) PG_GETARG_POINTER(2);
	int			relation = PG_GETARG_INT32(3);
	VariableStatData column;
	Node	   *other;
	bool		is_left;
	statistics	read;
	double		share = -1;

	if (get_restriction_variable(root, arguments, relation, &column, &other,
								 &is_left))
	{
		if (is_null(other))
			share = 0;
		else if (is_constant(fcinfo, &column, other, "semver_range") &&
				 read_statistics(&column, operator, &read))
		{
			share = matching(&read, value_of(other));
			free_statistics(&read);
		}
		ReleaseVariableStats(column);
	}
	if (share < 0)
		share = generic_restriction_selectivity(root, operator,
												PG_GET_COLLATION(), arguments,
												relation, DEFAULT_MATCHING_SEL);
	PG_RETURN_FLOAT8(share);
}

/* ---- of bounds */

/* The share of versions from one bound on and below another. */
static double
between(const statistics *it, const char *low, const char *high)
{
	double		common = 0;

	for (int n = 0; n < it->common.nvalues; n++)
	{
		const char *key = key_at(&it->common, n).at;

		if (strcmp(low, key) <= 0 && strcmp(key, high) < 0)
			common += it->common.numbers[n];
	}
	return common + it->others * share_between(it, low, high, ANY_VERSION);
}

/*
 * Of NOT version <@ range, which has each piece's bounds with the other
 * operators: version < low OR version >= high.  The bound that has the range has
 * the share of what doesn't match.  The other low ones leave it as it is, and
 * the high ones add nothing.
 */
static double
beside_negated(VariableStatData *column, Oid operator,
			   const struct varlena *bound, bool is_low)
{
	struct varlena *range;
	statistics	read;
	double		share;

	if (is_low)
		return 0;
	range = sv_range_of_bound(bound);
	if (range == NULL)
		return 1;
	if (!read_statistics(column, operator, &read))
		return 1 - DEFAULT_MATCHING_SEL;
	share = at_least_one(&read, 1 - read.nulls - matching(&read, range));
	free_statistics(&read);
	return share;
}

/*
 * Two bounds of a plan know each other: the low one has the share of what is
 * between both, and the high one leaves it as it is.  A low one that is asked as
 * a high one is negated.
 */
static double
beside_bound(VariableStatData *column, Oid operator,
			 const struct varlena *bound, bool is_low)
{
	const char *key = sv_key(bound).at;
	const char *other = sv_other_bound(bound);
	int			order = other != NULL ? strcmp(key, other) : 0;
	statistics	read;
	double		share;

	if (is_low ? order > 0 : order < 0)
		return beside_negated(column, operator, bound, is_low);
	if (other != NULL && !is_low)
		return 1;
	if (!read_statistics(column, operator, &read))
		return other != NULL ? DEFAULT_MATCHING_SEL : DEFAULT_INEQ_SEL;
	if (is_low)
		share = between(&read, key, other != NULL ? other : "\x7F");
	else
		share = between(&read, "", key);
	share = at_least_one(&read, share);
	free_statistics(&read);
	return share;
}

static Datum
bound_sel(FunctionCallInfo fcinfo, bool is_low)
{
	PlannerInfo *root = (PlannerInfo *) PG_GETARG_POINTER(0);
	Oid			operator = PG_GETARG_OID(1);
	List	   *arguments = (List *) PG_GETARG_POINTER(2);
	VariableStatData column;
	Node	   *other;
	bool		is_left;
	double		share;

	/* Two bounds that aren't known leave what a range does that isn't. */
	share = sqrt(DEFAULT_MATCHING_SEL);
	if (!get_restriction_variable(root, arguments, PG_GETARG_INT32(3), &column,
								  &other, &is_left))
		PG_RETURN_FLOAT8(share);
	if (is_null(other))
		share = 0;
	else if (is_constant(fcinfo, &column, other, "semver_bound"))
		share = beside_bound(&column, operator, value_of(other),
							 is_low == is_left);
	ReleaseVariableStats(column);
	PG_RETURN_FLOAT8(share);
}

/* Of < and <=, which are the same, since no version equals a bound. */
PG_FUNCTION_INFO_V1(deno_semver_bound_ltsel);
Datum
deno_semver_bound_ltsel(PG_FUNCTION_ARGS)
{
	return bound_sel(fcinfo, false);
}

/* Of > and >=. */
PG_FUNCTION_INFO_V1(deno_semver_bound_gtsel);
Datum
deno_semver_bound_gtsel(PG_FUNCTION_ARGS)
{
	return bound_sel(fcinfo, true);
}
