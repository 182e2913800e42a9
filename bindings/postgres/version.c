/* SPDX-License-Identifier: MIT */
/*
 * version.c
 *		The type semver, bounds of scans, and their orders.
 */
#include "postgres.h"

#include "deno_semver.h"

#include "common/hashfn.h"
#include "libpq/pqformat.h"
#include "utils/builtins.h"

/* What is sent: the format, and the version as displayed, or the key of a bound. */
#define FORMAT 1

/* ---- what is stored */

sv_string
sv_version_string(const struct varlena *version)
{
	sv_string	key = sv_key(version);

	return sv_string_of(key.at + key.len + 1,
						VARSIZE_ANY_EXHDR(version) - key.len - 1);
}

/*
 * Whether a key is that of a pre-release.  A number is a letter and digits, A
 * for one digit.  Behind the three a pre-release has a hyphen, and a release a
 * tilde.
 */
bool
sv_is_pre(sv_string key)
{
	size_t		at = 0;

	for (int number = 0; number < 3 && at < key.len; number++)
	{
		if (key.at[at] < 'A' || key.at[at] > 'Z')
			sv_reject_stored("sort key");
		at += key.at[at] - 'A' + 2;
	}
	if (at >= key.len)
		sv_reject_stored("sort key");
	return key.at[at] == '-';
}

/* Makes what is stored of a version, if it is one. */
static int32_t
make_version(sv_string version, struct varlena **made)
{
	static semver_ver held;		/* the last version, so that no error loses it */
	sv_written	shown;
	sv_written	key;
	int32_t		code;
	size_t		size;

	SV_WRITES(code, &shown, semver_version_read(SV_BYTES(version), &held,
												SV_OUT(&shown)));
	if (code != SEMVER_YES)
		return code;
	SV_WRITES(code, &key, semver_version_key(&held, SV_OUT(&key)));
	if (code != SEMVER_YES)
		return code;
	size = VARHDRSZ + key.len + 1 + shown.len;
	*made = palloc(size);
	SET_VARSIZE(*made, size);
	memcpy(VARDATA(*made), key.at, key.len);
	VARDATA(*made)[key.len] = 0;
	memcpy(VARDATA(*made) + key.len + 1, shown.at, shown.len);
	return code;
}

/* Reads a version; NULL if it is invalid, and that is a soft error. */
static struct varlena *
read_version(Node *context, sv_string version)
{
	struct varlena *made = NULL;
	int32_t		code;

	if (sv_is_long_version(context, version))
		return NULL;
	code = make_version(version, &made);
	if (code != SEMVER_YES)
		sv_reject_version(context, version, code);
	return made;
}

/*
 * Makes a bound; for estimates with the other end of its interval, and with the
 * range.  Both may be NULL; with a range there is another end.
 */
struct varlena *
sv_bound(const char *key, const char *other, const struct varlena *range)
{
	size_t		size = strlen(key) + 1;
	size_t		of_other = other != NULL ? strlen(other) + 1 : 0;
	size_t		of_range = range != NULL ? VARSIZE_ANY_EXHDR(range) : 0;
	struct varlena *bound = palloc(VARHDRSZ + size + of_other + of_range);

	SET_VARSIZE(bound, VARHDRSZ + size + of_other + of_range);
	memcpy(VARDATA(bound), key, size);
	if (other != NULL)
		memcpy(VARDATA(bound) + size, other, of_other);
	if (range != NULL)
		memcpy(VARDATA(bound) + size + of_other, VARDATA_ANY(range), of_range);
	return bound;
}

/* The other end of a bound's interval, or NULL if it has none. */
const char *
sv_other_bound(const struct varlena *bound)
{
	sv_string	other = sv_version_string(bound);

	return other.len > 0 && other.at[other.len - 1] == 0 ? other.at : NULL;
}

/* A copy of the range of a bound, or NULL if it has none. */
struct varlena *
sv_range_of_bound(const struct varlena *bound)
{
	sv_string	rest = sv_version_string(bound);
	const char *end = memchr(rest.at, 0, rest.len);
	size_t		before = end != NULL ? end - rest.at + 1 : rest.len;
	struct varlena *range;

	if (before == rest.len)
		return NULL;
	range = palloc(VARHDRSZ + rest.len - before);
	SET_VARSIZE(range, VARHDRSZ + rest.len - before);
	memcpy(VARDATA(range), rest.at + before, rest.len - before);
	return range;
}

/*
 * Reads a bound, which has the bytes of keys; NULL if it has others, and that
 * is a soft error.
 */
static struct varlena *
read_bound(Node *context, const char *bound)
{
	for (const char *at = bound; *at; at++)
	{
		if (*at >= '!' && *at <= '~')
			continue;
		sv_reject_bound(context, bound);
		return NULL;
	}
	return sv_bound(bound, NULL, NULL);
}

/* ---- input and output */

PG_FUNCTION_INFO_V1(deno_semver_in);
Datum
deno_semver_in(PG_FUNCTION_ARGS)
{
	sv_string	string = sv_utf8(PG_GETARG_CSTRING(0));
	struct varlena *version = read_version(fcinfo->context, string);

	if (version == NULL)
		PG_RETURN_NULL();
	PG_RETURN_POINTER(version);
}

PG_FUNCTION_INFO_V1(deno_semver_out);
Datum
deno_semver_out(PG_FUNCTION_ARGS)
{
	sv_string	shown = sv_version_string(PG_GETARG_VARLENA_PP(0));

	PG_RETURN_CSTRING(pnstrdup(shown.at, shown.len));
}

/* What is received behind the byte for the format. */
static char *
received(StringInfo message, const char *type)
{
	int			format = pq_getmsgbyte(message);
	int			len;

	if (format != FORMAT)
		ereport(ERROR,
				(errcode(ERRCODE_INVALID_BINARY_REPRESENTATION),
				 errmsg("unsupported format %d of a %s", format, type)));
	return pq_getmsgtext(message, message->len - message->cursor, &len);
}

static bytea *
sent(const char *at, size_t len)
{
	StringInfoData message;

	pq_begintypsend(&message);
	pq_sendbyte(&message, FORMAT);
	pq_sendtext(&message, at, (int) len);
	return pq_endtypsend(&message);
}

PG_FUNCTION_INFO_V1(deno_semver_recv);
Datum
deno_semver_recv(PG_FUNCTION_ARGS)
{
	char	   *version = received((StringInfo) PG_GETARG_POINTER(0), "semver");

	PG_RETURN_POINTER(read_version(NULL, sv_utf8(version)));
}

PG_FUNCTION_INFO_V1(deno_semver_send);
Datum
deno_semver_send(PG_FUNCTION_ARGS)
{
	sv_string	shown = sv_version_string(PG_GETARG_VARLENA_PP(0));

	PG_RETURN_BYTEA_P(sent(SV_BYTES(shown)));
}

PG_FUNCTION_INFO_V1(deno_semver_bound_in);
Datum
deno_semver_bound_in(PG_FUNCTION_ARGS)
{
	struct varlena *bound = read_bound(fcinfo->context, PG_GETARG_CSTRING(0));

	if (bound == NULL)
		PG_RETURN_NULL();
	PG_RETURN_POINTER(bound);
}

PG_FUNCTION_INFO_V1(deno_semver_bound_out);
Datum
deno_semver_bound_out(PG_FUNCTION_ARGS)
{
	sv_string	key = sv_key(PG_GETARG_VARLENA_PP(0));

	PG_RETURN_CSTRING(pnstrdup(key.at, key.len));
}

PG_FUNCTION_INFO_V1(deno_semver_bound_recv);
Datum
deno_semver_bound_recv(PG_FUNCTION_ARGS)
{
	char	   *bound = received((StringInfo) PG_GETARG_POINTER(0), "semver_bound");

	PG_RETURN_POINTER(read_bound(NULL, bound));
}

PG_FUNCTION_INFO_V1(deno_semver_bound_send);
Datum
deno_semver_bound_send(PG_FUNCTION_ARGS)
{
	sv_string	key = sv_key(PG_GETARG_VARLENA_PP(0));

	PG_RETURN_BYTEA_P(sent(SV_BYTES(key)));
}

/*
 * The version of a text, or NULL if it is none, or too long for npm: whatever
 * the settings, since an index may have it.
 */
PG_FUNCTION_INFO_V1(deno_semver_try);
Datum
deno_semver_try(PG_FUNCTION_ARGS)
{
	sv_string	version = sv_utf8_of(PG_GETARG_TEXT_PP(0));
	struct varlena *made = NULL;
	int32_t		code;

	if (version.len > SV_MOST_TRIED)
		PG_RETURN_NULL();
	code = make_version(version, &made);
	if (code == SEMVER_INVALID_VERSION || code == SEMVER_NOT_UTF8)
		PG_RETURN_NULL();
	if (code != SEMVER_YES)
		sv_reject_version(NULL, version, code);
	PG_RETURN_POINTER(made);
}

PG_FUNCTION_INFO_V1(deno_semver_key);
Datum
deno_semver_key(PG_FUNCTION_ARGS)
{
	sv_string	key = sv_key(PG_GETARG_VARLENA_PP(0));

	PG_RETURN_TEXT_P(cstring_to_text_with_len(key.at, (int) key.len));
}

PG_FUNCTION_INFO_V1(deno_semver_is_pre);
Datum
deno_semver_is_pre(PG_FUNCTION_ARGS)
{
	PG_RETURN_BOOL(sv_is_pre(sv_key(PG_GETARG_VARLENA_PP(0))));
}

/* ---- orders */

static int
by_precedence(const struct varlena *one, const struct varlena *other)
{
	sv_string	a = sv_key(one);
	sv_string	b = sv_key(other);

	return memcmp(a.at, b.at, Min(a.len, b.len) + 1);
}

static bool
same_precedence(const struct varlena *one, const struct varlena *other)
{
	return by_precedence(one, other) == 0;
}

/* Versions are the same if their bytes are. */
static bool
is_same(const struct varlena *one, const struct varlena *other)
{
	size_t		size = VARSIZE_ANY_EXHDR(one);

	return size == VARSIZE_ANY_EXHDR(other) &&
		memcmp(VARDATA_ANY(one), VARDATA_ANY(other), size) == 0;
}

/* The order of two versions of one precedence, which is that of their builds. */
static int
by_build(const struct varlena *one, const struct varlena *other)
{
	sv_string	a = sv_version_string(one);
	sv_string	b = sv_version_string(other);
	semver_ver	v = {0};
	semver_ver	w = {0};
	char		none[1];
	size_t		needed;
	int32_t		code;

	code = semver_version_read(SV_BYTES(a), &v, none, 0, &needed);
	if (code == SEMVER_YES)
		code = semver_version_read(SV_BYTES(b), &w, none, 0, &needed);
	if (code == SEMVER_YES)
		code = semver_version_order(&v, &w);
	semver_version_free(&v);
	semver_version_free(&w);
	if (code == SEMVER_NO_MEMORY)
		sv_reject_memory();
	if (code < 0)
		sv_reject_stored("semver");
	return code - SEMVER_SAME;
}

/* By precedence and then by build, so that versions are equal if they are the same. */
static int
by_version(const struct varlena *one, const struct varlena *other)
{
	int			by_key;

	if (is_same(one, other))
		return 0;
	by_key = by_precedence(one, other);
	return by_key != 0 ? by_key : by_build(one, other);
}

/* A bound stands below each version of the same key, so that it equals none. */
static int
version_with_bound(const struct varlena *version, const struct varlena *bound)
{
	return by_precedence(version, bound) < 0 ? -1 : 1;
}

static int
bound_with_version(const struct varlena *bound, const struct varlena *version)
{
	return -version_with_bound(version, bound);
}

static bool
never_equal(const struct varlena *one, const struct varlena *other)
{
	return false;
}

SV_ORDER(deno_semver, by_version)
SV_EQUALITY(deno_semver, is_same)
SV_ORDER(deno_semver_precedence, by_precedence)
SV_EQUALITY(deno_semver_precedence, same_precedence)
SV_ORDER(deno_semver_with_bound, version_with_bound)
SV_EQUALITY(deno_semver_with_bound, never_equal)
SV_ORDER(deno_semver_bound_with, bound_with_version)
SV_EQUALITY(deno_semver_bound_with, never_equal)
SV_ORDER(deno_semver_bound, by_precedence)
SV_EQUALITY(deno_semver_bound, same_precedence)

PG_FUNCTION_INFO_V1(deno_semver_larger);
Datum
deno_semver_larger(PG_FUNCTION_ARGS)
{
	int			is = by_version(PG_GETARG_VARLENA_PP(0), PG_GETARG_VARLENA_PP(1));

	PG_RETURN_DATUM(PG_GETARG_DATUM(is >= 0 ? 0 : 1));
}

PG_FUNCTION_INFO_V1(deno_semver_smaller);
Datum
deno_semver_smaller(PG_FUNCTION_ARGS)
{
	int			is = by_version(PG_GETARG_VARLENA_PP(0), PG_GETARG_VARLENA_PP(1));

	PG_RETURN_DATUM(PG_GETARG_DATUM(is <= 0 ? 0 : 1));
}

/* ---- hashes: of all bytes, and of the key alone */

PG_FUNCTION_INFO_V1(deno_semver_hash);
Datum
deno_semver_hash(PG_FUNCTION_ARGS)
{
	struct varlena *version = PG_GETARG_VARLENA_PP(0);
	Datum		hash = hash_any((unsigned char *) VARDATA_ANY(version),
								VARSIZE_ANY_EXHDR(version));

	PG_FREE_IF_COPY(version, 0);
	return hash;
}

PG_FUNCTION_INFO_V1(deno_semver_hash_extended);
Datum
deno_semver_hash_extended(PG_FUNCTION_ARGS)
{
	struct varlena *version = PG_GETARG_VARLENA_PP(0);
	Datum		hash = hash_any_extended((unsigned char *) VARDATA_ANY(version),
										 VARSIZE_ANY_EXHDR(version),
										 PG_GETARG_INT64(1));

	PG_FREE_IF_COPY(version, 0);
	return hash;
}

PG_FUNCTION_INFO_V1(deno_semver_precedence_hash);
Datum
deno_semver_precedence_hash(PG_FUNCTION_ARGS)
{
	struct varlena *version = PG_GETARG_VARLENA_PP(0);
	sv_string	key = sv_key(version);
	Datum		hash = hash_any((const unsigned char *) key.at, key.len);

	PG_FREE_IF_COPY(version, 0);
	return hash;
}

PG_FUNCTION_INFO_V1(deno_semver_precedence_hash_extended);
Datum
deno_semver_precedence_hash_extended(PG_FUNCTION_ARGS)
{
	struct varlena *version = PG_GETARG_VARLENA_PP(0);
	sv_string	key = sv_key(version);
	Datum		hash = hash_any_extended((const unsigned char *) key.at,
										 key.len, PG_GETARG_INT64(1));

	PG_FREE_IF_COPY(version, 0);
	return hash;
}

/* ---- sorting: the first eight bytes of a key tell most versions apart */

int
sv_compare_stored(Datum one, Datum other,
				  int (*order) (const struct varlena *, const struct varlena *))
{
	struct varlena *a = PG_DETOAST_DATUM_PACKED(one);
	struct varlena *b = PG_DETOAST_DATUM_PACKED(other);
	int			is = order(a, b);

	if ((Pointer) a != DatumGetPointer(one))
		pfree(a);
	if ((Pointer) b != DatumGetPointer(other))
		pfree(b);
	return is;
}

static int
compare_versions(Datum one, Datum other, SortSupport support)
{
	return sv_compare_stored(one, other, by_version);
}

static int
compare_precedence(Datum one, Datum other, SortSupport support)
{
	return sv_compare_stored(one, other, by_precedence);
}

/* The first bytes of a key, as a number that compares as they do. */
uint64
sv_first_bytes(sv_string key)
{
	uint64		first = 0;

	for (size_t n = 0; n < sizeof(first); n++)
		first = first << 8 | (n < key.len ? (unsigned char) key.at[n] : 0);
	return first;
}

static Datum
abbreviate(Datum original, SortSupport support)
{
	struct varlena *version = PG_DETOAST_DATUM_PACKED(original);
	uint64		first = sv_first_bytes(sv_key(version));

	if ((Pointer) version != DatumGetPointer(original))
		pfree(version);
	return UInt64GetDatum(first);
}

/* To abbreviate a value costs less than to compare two. */
static bool
never_abort(int count, SortSupport support)
{
	return false;
}

void
sv_prepare_sort(SortSupport support,
				int (*compare) (Datum, Datum, SortSupport),
				Datum (*abbreviated) (Datum, SortSupport))
{
	support->comparator = compare;
#if SIZEOF_DATUM == 8
	if (support->abbreviate)
	{
		support->comparator = ssup_datum_unsigned_cmp;
		support->abbrev_full_comparator = compare;
		support->abbrev_converter = abbreviated;
		support->abbrev_abort = never_abort;
	}
#endif
}

PG_FUNCTION_INFO_V1(deno_semver_sortsupport);
Datum
deno_semver_sortsupport(PG_FUNCTION_ARGS)
{
	sv_prepare_sort((SortSupport) PG_GETARG_POINTER(0), compare_versions,
					abbreviate);
	PG_RETURN_VOID();
}

PG_FUNCTION_INFO_V1(deno_semver_precedence_sortsupport);
Datum
deno_semver_precedence_sortsupport(PG_FUNCTION_ARGS)
{
	sv_prepare_sort((SortSupport) PG_GETARG_POINTER(0), compare_precedence,
					abbreviate);
	PG_RETURN_VOID();
}
