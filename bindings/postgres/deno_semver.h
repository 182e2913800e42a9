/* SPDX-License-Identifier: MIT */
/*
 * deno_semver.h
 *		What the files of the extension share: strings, errors, and how versions
 *		and ranges are stored.
 *
 * The library never calls back, so no error of PostgreSQL passes its frames.
 * What it holds is memory of malloc, so nothing may raise an error while a
 * handle is full, unless the handle is freed then.
 */
#ifndef DENO_SEMVER_H
#define DENO_SEMVER_H

#include "fmgr.h"
#include "nodes/nodes.h"
#if PG_VERSION_NUM >= 160000
#include "varatt.h"
#endif
#include "utils/sortsupport.h"
#include <semver.h>

/* What the files share isn't exported, so the compiler may inline it. */
#pragma GCC visibility push(hidden)

/* The longest version that semver_try takes, as node-semver. */
#define SV_MOST_TRIED 256

/* A string in UTF-8. */
typedef struct
{
	const char *at;
	size_t		len;
} sv_string;

static inline sv_string
sv_string_of(const char *at, size_t len)
{
	sv_string	string = {at, len};

	return string;
}

#define SV_BYTES(string) (string).at, (string).len

/* What a call of the library writes. */
typedef struct
{
	char		near[256];
	char	   *at;
	size_t		room;
	size_t		len;
} sv_written;

extern void sv_begin(sv_written *it);
extern bool sv_must_repeat(sv_written *it);
extern void sv_end(sv_written *it);

#define SV_OUT(it) (it)->at, (it)->room, &(it)->len

/* Calls, and once more with a larger buffer if what the call writes is long. */
#define SV_WRITES(code, it, call) \
	do { \
		sv_begin(it); \
		do { \
			(code) = (call); \
		} while (sv_must_repeat(it)); \
	} while (0)

/*
 * A string of the database's encoding in UTF-8, and back.  That of a text may
 * have no zero byte behind it, and is copied only if it must be.
 */
extern sv_string sv_utf8(const char *string);
extern sv_string sv_utf8_of(const text *string);
extern const char *sv_server(const char *utf8, size_t len);
extern text *sv_text(const char *utf8, size_t len);

/*
 * Errors.  With a context that takes soft errors, from PostgreSQL 16 on, all but
 * the last return.
 */
extern void sv_reject_version(Node *context, sv_string version, int32_t code);
extern void sv_reject_range(Node *context, uint32_t grammar, sv_string range,
							int32_t code);
extern void sv_reject_bound(Node *context, const char *bound);
extern bool sv_is_long_version(Node *context, sv_string version);
extern bool sv_is_long_range(Node *context, sv_string range);
extern void sv_reject_stored(const char *what);
extern void sv_reject_memory(void);

/* The grammar of this name. */
extern uint32_t sv_grammar(const text *name);

/*
 * semver: the sort key, a zero byte, and the version as displayed.
 * semver_bound: a key, or the bound of a scan, and a zero byte.  It stands below
 * each version of the same key.  In a plan the other bound of the scan, and a
 * zero byte, may follow, and then the range; no comparison reads them.
 *
 * A zero byte is below each byte of a key, so keys compare by memcmp with the
 * zero byte behind them.
 */

/*
 * The key of a version, or of a bound.  The bytes are those of the disk, or of
 * who may cast to the type without a function.
 */
static inline sv_string
sv_key(const struct varlena *stored)
{
	const char *at = VARDATA_ANY(stored);
	const char *end = memchr(at, 0, VARSIZE_ANY_EXHDR(stored));

	if (end == NULL)
		sv_reject_stored("sort key");
	return sv_string_of(at, end - at);
}

extern sv_string sv_version_string(const struct varlena *version);
extern bool sv_is_pre(sv_string key);
extern struct varlena *sv_bound(const char *key, const char *other,
								const struct varlena *range);
extern const char *sv_other_bound(const struct varlena *bound);
extern struct varlena *sv_range_of_bound(const struct varlena *bound);

/*
 * semver_range: its scans, its text and its canonical form; range.c says how
 * they are laid out.
 */
typedef struct
{
	const char *data;
	size_t		size;
	uint32_t	releases;		/* the first scans are about releases */
	uint32_t	count;			/* of all scans */
} sv_scans;

extern sv_scans sv_scans_of(const struct varlena *range);
extern const char *sv_low(const sv_scans *scans, uint32_t index);
extern const char *sv_high(const sv_scans *scans, uint32_t index);
extern bool sv_contains(const struct varlena *range,
						const struct varlena *version);
extern void sv_hull(const struct varlena *range, const char **low,
					const char **high);

/* Sorting, with the first bytes of a key as a number. */
extern int	sv_compare_stored(Datum one, Datum other,
							  int (*order) (const struct varlena *,
											const struct varlena *));
extern uint64 sv_first_bytes(sv_string key);
extern void sv_prepare_sort(SortSupport support,
							int (*compare) (Datum, Datum, SortSupport),
							Datum (*abbreviated) (Datum, SortSupport));

/* The type of this name in the schema of a function of the extension. */
extern Oid	sv_type_of(Oid function, const char *name);

/* The functions of an order, and each of them. */
#define SV_COMPARES(name, order, result) \
	PG_FUNCTION_INFO_V1(name); \
	Datum \
	name(PG_FUNCTION_ARGS) \
	{ \
		struct varlena *one = PG_GETARG_VARLENA_PP(0); \
		struct varlena *other = PG_GETARG_VARLENA_PP(1); \
		int			is = order(one, other); \
		\
		PG_FREE_IF_COPY(one, 0); \
		PG_FREE_IF_COPY(other, 1); \
		result; \
	}

#define SV_ORDER(name, order) \
	SV_COMPARES(name##_lt, order, PG_RETURN_BOOL(is < 0)) \
	SV_COMPARES(name##_le, order, PG_RETURN_BOOL(is <= 0)) \
	SV_COMPARES(name##_ge, order, PG_RETURN_BOOL(is >= 0)) \
	SV_COMPARES(name##_gt, order, PG_RETURN_BOOL(is > 0)) \
	SV_COMPARES(name##_cmp, order, PG_RETURN_INT32((is > 0) - (is < 0)))

#define SV_EQUALITY(name, equal) \
	SV_COMPARES(name##_eq, equal, PG_RETURN_BOOL(is)) \
	SV_COMPARES(name##_ne, equal, PG_RETURN_BOOL(!is))

#pragma GCC visibility pop

#endif							/* DENO_SEMVER_H */
