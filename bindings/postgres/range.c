/* SPDX-License-Identifier: MIT */
/*
 * range.c
 *		The type semver_range: what a range matches, as scans of sort keys, its
 *		text and its canonical form.
 *
 * It is stored as a byte for the format, and numbers of 32 bits: how many scans
 * are about releases, how many there are, and where each string begins.  Then
 * follow the strings, each with a zero byte behind it: the low and the high
 * bound of each scan, the text in UTF-8 and the canonical form, which may be
 * the text.  So whether a version matches needs no parser, and the scans of its
 * kind are searched by halves.
 */
#include "postgres.h"

#include "deno_semver.h"

#include "access/parallel.h"
#include "access/xact.h"
#include "common/hashfn.h"
#include "funcapi.h"
#include "lib/stringinfo.h"
#include "libpq/pqformat.h"
#include "miscadmin.h"
#include "utils/builtins.h"
#include "utils/timestamp.h"
#include "utils/tuplestore.h"

#define FORMAT 1

/* Where the string of this index begins is written, behind the format. */
#define OFFSET(index) (1 + (2 + (size_t) (index)) * sizeof(uint32_t))

/* The indexes of the last strings. */
#define TEXT_OF(count) (2 * (count))
#define CANONICAL_OF(count) (2 * (count) + 1)

/* Where the strings begin. */
#define HEAD(count) OFFSET(CANONICAL_OF(count) + 1)

/* ---- what is stored */

static uint32_t
number_at(const char *at)
{
	uint32_t	number;

	memcpy(&number, at, sizeof(number));
	return number;
}

/*
 * The last byte is zero, so a string that begins inside ends there.
 */
sv_scans
sv_scans_of(const struct varlena *range)
{
	sv_scans	scans;

	scans.data = VARDATA_ANY(range);
	scans.size = VARSIZE_ANY_EXHDR(range);
	if (scans.size <= HEAD(0) || scans.data[0] != FORMAT ||
		scans.data[scans.size - 1] != 0)
		sv_reject_stored("semver_range");
	scans.releases = number_at(scans.data + 1);
	scans.count = number_at(scans.data + 1 + sizeof(uint32_t));
	if (scans.releases > scans.count || scans.count > scans.size ||
		scans.size <= HEAD(scans.count))
		sv_reject_stored("semver_range");
	return scans;
}

static const char *
string_at(const sv_scans *scans, uint32_t index)
{
	uint32_t	at = number_at(scans->data + OFFSET(index));

	if (at < HEAD(scans->count) || at >= scans->size)
		sv_reject_stored("semver_range");
	return scans->data + at;
}

const char *
sv_low(const sv_scans *scans, uint32_t index)
{
	return string_at(scans, 2 * index);
}

const char *
sv_high(const sv_scans *scans, uint32_t index)
{
	return string_at(scans, 2 * index + 1);
}

static const char *
text_of(const struct varlena *range)
{
	sv_scans	scans = sv_scans_of(range);

	return string_at(&scans, TEXT_OF(scans.count));
}

static const char *
canonical_of(const struct varlena *range)
{
	sv_scans	scans = sv_scans_of(range);

	return string_at(&scans, CANONICAL_OF(scans.count));
}

/* ---- making a range */

static void
put_offset(StringInfo made, size_t index, size_t at)
{
	uint32_t	offset = (uint32_t) (at - VARHDRSZ);

	memcpy(made->data + VARHDRSZ + OFFSET(index), &offset, sizeof(offset));
}

static void
add_string(StringInfo made, size_t index, const char *at, size_t len)
{
	put_offset(made, index, made->len);
	appendBinaryStringInfo(made, at, (int) len);
	appendStringInfoChar(made, '\0');
}

/* Adds the bounds of a scan; whether it is about pre-releases. */
static bool
add_scan(StringInfo made, const semver_scans *scans, size_t index)
{
	char		none[2];
	size_t		low;
	size_t		high;
	char	   *at;
	int32_t		code;

	semver_scan(scans, index, none, 0, &low, none + 1, 0, &high);
	enlargeStringInfo(made, (int) (low + high + 2));
	at = made->data + made->len;
	code = semver_scan(scans, index, at, low, &low, at + low + 1, high, &high);
	at[low] = 0;
	at[low + 1 + high] = 0;
	put_offset(made, 2 * index, made->len);
	put_offset(made, 2 * index + 1, made->len + low + 1);
	made->len += (int) (low + high + 2);
	return code == SEMVER_YES;
}

static struct varlena *
range_of(const semver_scans *scans, size_t count, sv_string string,
		 sv_string canonical)
{
	StringInfoData made;
	uint32_t	counts[2] = {0, (uint32_t) count};
	int			head = (int) (VARHDRSZ + HEAD(count));

	initStringInfo(&made);
	enlargeStringInfo(&made, head);
	made.len = head;
	for (size_t n = 0; n < count; n++)
		counts[0] += !add_scan(&made, scans, n);
	if (canonical.len == string.len &&
		memcmp(canonical.at, string.at, string.len) == 0)
		put_offset(&made, CANONICAL_OF(count), made.len);
	else
		add_string(&made, CANONICAL_OF(count), SV_BYTES(canonical));
	add_string(&made, TEXT_OF(count), SV_BYTES(string));
	made.data[VARHDRSZ] = FORMAT;
	memcpy(made.data + VARHDRSZ + 1, counts, sizeof(counts));
	SET_VARSIZE(made.data, made.len);
	return (struct varlena *) made.data;
}

/* Makes what is stored of a range that is held; NULL with a code if it is a tag. */
static struct varlena *
make_range(const semver_req *req, uint32_t pre_releases, sv_string string,
		   int32_t *code)
{
	semver_scans scans = {0};
	size_t		count = 0;
	sv_written	canonical;
	struct varlena *made = NULL;

	SV_WRITES(*code, &canonical, semver_req_normal(req, SV_OUT(&canonical)));
	if (*code == SEMVER_YES)
		*code = semver_scans_read(req, pre_releases, &scans, &count);
	if (*code != SEMVER_YES)
		return NULL;
	PG_TRY();
	{
		made = range_of(&scans, count, string,
						sv_string_of(canonical.at, canonical.len));
	}
	PG_FINALLY();
	{
		semver_scans_free(&scans);
	}
	PG_END_TRY();
	return made;
}

/* Reads a range; NULL if it is invalid, or a tag, and that is a soft error. */
static struct varlena *
read_range(Node *context, uint32_t grammar, uint32_t pre_releases,
		   sv_string string)
{
	semver_req	req = {0};
	char		none[1];
	size_t		needed;
	struct varlena *made = NULL;
	int32_t		code;

	if (sv_is_long_range(context, string))
		return NULL;
	code = semver_req_read(grammar, SV_BYTES(string), &req, none, 0, &needed);
	if (code == SEMVER_YES)
	{
		PG_TRY();
		{
			made = make_range(&req, pre_releases, string, &code);
		}
		PG_FINALLY();
		{
			semver_req_free(&req);
		}
		PG_END_TRY();
	}
	if (made == NULL)
		sv_reject_range(context, grammar, string, code);
	return made;
}

/* ---- input and output */

/*
 * A range that matches nothing is probably a mistake: of `^1.2.3.4 || ^1.2.3.`
 * both alternatives are invalid, and so left out.  Who types one is told so, at
 * most once for each message of the client, so a dump is restored with one for
 * each table.  Parallel workers say nothing: the leader tells of what it reads.
 */
static void
tell_of_nothing(const struct varlena *range)
{
	static TimestampTz told = 0;
	TimestampTz now = GetCurrentStatementStartTimestamp();
	const char *string = text_of(range);

	if (sv_scans_of(range).count > 0 || told == now || IsParallelWorker())
		return;
	told = now;
	ereport(WARNING,
			(errmsg("semver_range \"%s\" matches no version",
					sv_server(string, strlen(string)))));
}

PG_FUNCTION_INFO_V1(deno_semver_range_in);
Datum
deno_semver_range_in(PG_FUNCTION_ARGS)
{
	sv_string	string = sv_utf8(PG_GETARG_CSTRING(0));
	struct varlena *range = read_range(fcinfo->context, SEMVER_NPM,
									   SEMVER_RESTRICTED, string);

	if (range == NULL)
		PG_RETURN_NULL();
	/* Who takes soft errors, such as pg_input_is_valid, asks for no messages. */
	if (fcinfo->context == NULL)
		tell_of_nothing(range);
	PG_RETURN_POINTER(range);
}

PG_FUNCTION_INFO_V1(deno_semver_range_out);
Datum
deno_semver_range_out(PG_FUNCTION_ARGS)
{
	const char *string = text_of(PG_GETARG_VARLENA_PP(0));

	PG_RETURN_CSTRING(unconstify(char *, sv_server(string, strlen(string))));
}

PG_FUNCTION_INFO_V1(deno_semver_range_recv);
Datum
deno_semver_range_recv(PG_FUNCTION_ARGS)
{
	StringInfo	message = (StringInfo) PG_GETARG_POINTER(0);
	int			format = pq_getmsgbyte(message);
	int			len;
	char	   *string;
	struct varlena *range;

	if (format != FORMAT)
		ereport(ERROR,
				(errcode(ERRCODE_INVALID_BINARY_REPRESENTATION),
				 errmsg("unsupported format %d of a semver_range", format)));
	string = pq_getmsgtext(message, message->len - message->cursor, &len);
	range = read_range(NULL, SEMVER_NPM, SEMVER_RESTRICTED, sv_utf8(string));
	tell_of_nothing(range);
	PG_RETURN_POINTER(range);
}

PG_FUNCTION_INFO_V1(deno_semver_range_send);
Datum
deno_semver_range_send(PG_FUNCTION_ARGS)
{
	const char *string = text_of(PG_GETARG_VARLENA_PP(0));
	const char *shown = sv_server(string, strlen(string));
	StringInfoData message;

	pq_begintypsend(&message);
	pq_sendbyte(&message, FORMAT);
	pq_sendtext(&message, shown, (int) strlen(shown));
	PG_RETURN_BYTEA_P(pq_endtypsend(&message));
}

/* ---- what a range matches */

/*
 * Whether a scan of those from one index to another has the key: the last that
 * begins at or below it, if it ends above.
 */
static bool
has_key(const sv_scans *scans, uint32_t from, uint32_t to, const char *key)
{
	uint32_t	first = from;

	while (from < to)
	{
		uint32_t	middle = from + (to - from) / 2;

		if (strcmp(sv_low(scans, middle), key) <= 0)
			from = middle + 1;
		else
			to = middle;
	}
	return from > first && strcmp(key, sv_high(scans, from - 1)) < 0;
}

/* Most versions are in no scan, so the kind is asked last. */
bool
sv_contains(const struct varlena *range, const struct varlena *version)
{
	sv_scans	scans = sv_scans_of(range);
	sv_string	key = sv_key(version);

	if (has_key(&scans, 0, scans.releases, key.at) && !sv_is_pre(key))
		return true;
	return has_key(&scans, scans.releases, scans.count, key.at) && sv_is_pre(key);
}

/*
 * The lowest and the highest bound.  Of a range that matches nothing both are
 * below all keys.
 */
void
sv_hull(const struct varlena *range, const char **low, const char **high)
{
	sv_scans	scans = sv_scans_of(range);
	uint32_t	first[2] = {0, scans.releases};
	uint32_t	end[2] = {scans.releases, scans.count};

	/* The scans of each kind ascend. */
	*low = *high = "";
	for (int kind = 0; kind < 2; kind++)
	{
		const char *lowest;
		const char *highest;

		if (first[kind] == end[kind])
			continue;
		lowest = sv_low(&scans, first[kind]);
		highest = sv_high(&scans, end[kind] - 1);
		/* No bound of a scan is empty, so the first kind is taken. */
		if (**low == 0 || strcmp(lowest, *low) < 0)
			*low = lowest;
		if (strcmp(highest, *high) > 0)
			*high = highest;
	}
}

PG_FUNCTION_INFO_V1(deno_semver_within);
Datum
deno_semver_within(PG_FUNCTION_ARGS)
{
	PG_RETURN_BOOL(sv_contains(PG_GETARG_VARLENA_PP(1), PG_GETARG_VARLENA_PP(0)));
}

PG_FUNCTION_INFO_V1(deno_semver_contains);
Datum
deno_semver_contains(PG_FUNCTION_ARGS)
{
	PG_RETURN_BOOL(sv_contains(PG_GETARG_VARLENA_PP(0), PG_GETARG_VARLENA_PP(1)));
}

PG_FUNCTION_INFO_V1(deno_semver_range_low);
Datum
deno_semver_range_low(PG_FUNCTION_ARGS)
{
	const char *low;
	const char *high;

	sv_hull(PG_GETARG_VARLENA_PP(0), &low, &high);
	PG_RETURN_POINTER(sv_bound(low, NULL, NULL));
}

PG_FUNCTION_INFO_V1(deno_semver_range_high);
Datum
deno_semver_range_high(PG_FUNCTION_ARGS)
{
	const char *low;
	const char *high;

	sv_hull(PG_GETARG_VARLENA_PP(0), &low, &high);
	PG_RETURN_POINTER(sv_bound(high, NULL, NULL));
}

static Datum
put_scans(FunctionCallInfo fcinfo, const struct varlena *range)
{
	ReturnSetInfo *result = (ReturnSetInfo *) fcinfo->resultinfo;
	sv_scans	scans = sv_scans_of(range);

	InitMaterializedSRF(fcinfo, 0);
	for (uint32_t n = 0; n < scans.count; n++)
	{
		Datum		row[3];
		bool		nulls[3] = {false, false, false};

		CHECK_FOR_INTERRUPTS();
		row[0] = BoolGetDatum(n >= scans.releases);
		row[1] = CStringGetTextDatum(sv_low(&scans, n));
		row[2] = CStringGetTextDatum(sv_high(&scans, n));
		tuplestore_putvalues(result->setResult, result->setDesc, row, nulls);
	}
	return (Datum) 0;
}

PG_FUNCTION_INFO_V1(deno_semver_scans);
Datum
deno_semver_scans(PG_FUNCTION_ARGS)
{
	return put_scans(fcinfo, PG_GETARG_VARLENA_PP(0));
}

/* By a grammar, and with pre-releases admitted throughout or not. */
PG_FUNCTION_INFO_V1(deno_semver_scans_by);
Datum
deno_semver_scans_by(PG_FUNCTION_ARGS)
{
	sv_string	string = sv_utf8(text_to_cstring(PG_GETARG_TEXT_PP(0)));
	uint32_t	pre_releases = PG_GETARG_BOOL(1) ? SEMVER_ADMITTED : SEMVER_RESTRICTED;
	uint32_t	grammar = sv_grammar(PG_GETARG_TEXT_PP(2));

	return put_scans(fcinfo, read_range(NULL, grammar, pre_releases, string));
}

PG_FUNCTION_INFO_V1(deno_semver_canonical);
Datum
deno_semver_canonical(PG_FUNCTION_ARGS)
{
	sv_string	string = sv_utf8(text_to_cstring(PG_GETARG_TEXT_PP(0)));
	uint32_t	grammar = sv_grammar(PG_GETARG_TEXT_PP(1));
	sv_written	canonical;
	int32_t		code;

	sv_is_long_range(NULL, string);
	SV_WRITES(code, &canonical, semver_normal(grammar, SV_BYTES(string),
											  SV_OUT(&canonical)));
	if (code != SEMVER_YES)
		sv_reject_range(NULL, grammar, string, code);
	PG_RETURN_TEXT_P(sv_text(canonical.at, canonical.len));
}

/* ---- the order of ranges, which is the library's */

/* What is stored was a range when it was stored. */
static void
check_parsed(int32_t code)
{
	if (code == SEMVER_NO_MEMORY)
		sv_reject_memory();
	if (code != SEMVER_YES)
		sv_reject_stored("semver_range");
}

/* The order of two ranges, or 0 with a code. */
static int
order_of_texts(const char *one, const char *other, int32_t *code)
{
	semver_req	a = {0};
	semver_req	b = {0};
	char		none[1];
	size_t		needed;
	int			is = 0;

	*code = semver_req_read(SEMVER_NPM, one, strlen(one), &a, none, 0, &needed);
	if (*code == SEMVER_YES)
		*code = semver_req_read(SEMVER_NPM, other, strlen(other), &b, none, 0,
								&needed);
	if (*code == SEMVER_YES)
		is = semver_req_order(&a, &b) - SEMVER_SAME;
	semver_req_free(&a);
	semver_req_free(&b);
	return is;
}

static int
by_range(const struct varlena *one, const struct varlena *other)
{
	const char *a = text_of(one);
	const char *b = text_of(other);
	int32_t		code;
	int			is;

	if (strcmp(a, b) == 0)
		return 0;
	is = order_of_texts(a, b, &code);
	check_parsed(code);
	return is;
}

/*
 * Equal ranges have one canonical form, so most that differ are told apart by
 * it, and it is what is hashed.
 */
static bool
is_equal(const struct varlena *one, const struct varlena *other)
{
	return strcmp(canonical_of(one), canonical_of(other)) == 0 &&
		by_range(one, other) == 0;
}

SV_ORDER(deno_semver_range, by_range)
SV_EQUALITY(deno_semver_range, is_equal)

/* ---- sorting: where the first alternative starts tells most ranges apart */

#define SLOTS 512

/* Longer strings share the first two slots, so a sort holds few of them. */
#define MOST_OF_SLOT 256

/* A range that a sort has parsed, its string, and the number of its start. */
typedef struct
{
	char	   *string;			/* NULL if nothing is parsed */
	semver_req	req;
	bool		has_number;
	uint64		number;
} parsed_range;

typedef struct
{
	parsed_range slots[SLOTS];
	MemoryContextCallback callback;
} parsed_ranges;

static void
free_parsed(void *it)
{
	for (int n = 0; n < SLOTS; n++)
		semver_req_free(&((parsed_ranges *) it)->slots[n].req);
}

/* What a sort has parsed.  It is freed with the sort, also after an error. */
static parsed_ranges *
parsed_by(SortSupport support)
{
	if (support->ssup_extra == NULL)
	{
		parsed_ranges *it = MemoryContextAllocZero(support->ssup_cxt, sizeof(*it));

		it->callback.func = free_parsed;
		it->callback.arg = it;
		MemoryContextRegisterResetCallback(support->ssup_cxt, &it->callback);
		support->ssup_extra = it;
	}
	return support->ssup_extra;
}

/* A range that is parsed, in another slot than that of the other one. */
static parsed_range *
parse(SortSupport support, const char *string, const parsed_range *other)
{
	parsed_ranges *all = parsed_by(support);
	size_t		len = strlen(string);
	uint32		index = 0;
	parsed_range *it;
	char		none[1];
	size_t		needed;
	int32_t		code;

	if (len <= MOST_OF_SLOT)
		index = hash_bytes((const unsigned char *) string, (int) len) % SLOTS;
	if (&all->slots[index] == other)
		index ^= 1;
	it = &all->slots[index];
	if (it->string != NULL && strcmp(it->string, string) == 0)
		return it;
	if (it->string != NULL)
		pfree(it->string);
	it->string = NULL;
	code = semver_req_read(SEMVER_NPM, string, len, &it->req, none, 0, &needed);
	check_parsed(code);
	it->has_number = false;
	it->string = MemoryContextStrdup(support->ssup_cxt, string);
	return it;
}

static int
compare_ranges(Datum one, Datum other, SortSupport support)
{
	struct varlena *a = PG_DETOAST_DATUM_PACKED(one);
	struct varlena *b = PG_DETOAST_DATUM_PACKED(other);
	const char *string = text_of(a);
	const char *other_string = text_of(b);
	int			is = 0;

	if (strcmp(string, other_string) != 0)
	{
		const parsed_range *range = parse(support, string, NULL);
		const parsed_range *other_range = parse(support, other_string, range);

		is = semver_req_order(&range->req, &other_range->req) - SEMVER_SAME;
	}
	if ((Pointer) a != DatumGetPointer(one))
		pfree(a);
	if ((Pointer) b != DatumGetPointer(other))
		pfree(b);
	return is;
}

/*
 * The start of the first alternative as a number that compares as ranges do.
 * Without alternatives a range is the lowest, the higher start comes before the
 * lower one, and a range without a start is the highest.
 */
static uint64
number_of_start(const char *json)
{
	static const char VERSION[] = "\"version\":\"";
	const char *start = strstr(json, "\"start\":");
	const char *version;
	sv_written	key;
	int32_t		code;
	uint64		number;

	if (start == NULL)
		return 0;
	version = strstr(start, VERSION);
	if (start[strlen("\"start\":")] != '{' || version == NULL)
		return PG_UINT64_MAX;
	version += strlen(VERSION);
	SV_WRITES(code, &key, semver_key(version, strcspn(version, "\""),
									 SV_OUT(&key)));
	check_parsed(code);
	number = PG_UINT64_MAX - sv_first_bytes(sv_string_of(key.at, key.len));
	sv_end(&key);
	return number;
}

/* What is allocated here would stay until the sort ends. */
static uint64
number_of(const char *string)
{
	sv_written	written;
	int32_t		code;
	char	   *json;
	uint64		number;

	SV_WRITES(code, &written, semver_ranges(SEMVER_NPM, string, strlen(string),
											SV_OUT(&written)));
	check_parsed(code);
	json = pnstrdup(written.at, written.len);
	number = number_of_start(json);
	pfree(json);
	sv_end(&written);
	return number;
}

static Datum
abbreviate(Datum original, SortSupport support)
{
	struct varlena *range = PG_DETOAST_DATUM_PACKED(original);
	parsed_range *it = parse(support, text_of(range), NULL);

	if (!it->has_number)
	{
		it->number = number_of(it->string);
		it->has_number = true;
	}
	if ((Pointer) range != DatumGetPointer(original))
		pfree(range);
	return UInt64GetDatum(it->number);
}

PG_FUNCTION_INFO_V1(deno_semver_range_sortsupport);
Datum
deno_semver_range_sortsupport(PG_FUNCTION_ARGS)
{
	sv_prepare_sort((SortSupport) PG_GETARG_POINTER(0), compare_ranges,
					abbreviate);
	PG_RETURN_VOID();
}

PG_FUNCTION_INFO_V1(deno_semver_range_hash);
Datum
deno_semver_range_hash(PG_FUNCTION_ARGS)
{
	struct varlena *range = PG_GETARG_VARLENA_PP(0);
	const char *canonical = canonical_of(range);
	Datum		hash = hash_any((const unsigned char *) canonical,
								(int) strlen(canonical));

	PG_FREE_IF_COPY(range, 0);
	return hash;
}

PG_FUNCTION_INFO_V1(deno_semver_range_hash_extended);
Datum
deno_semver_range_hash_extended(PG_FUNCTION_ARGS)
{
	struct varlena *range = PG_GETARG_VARLENA_PP(0);
	const char *canonical = canonical_of(range);
	Datum		hash = hash_any_extended((const unsigned char *) canonical,
										 (int) strlen(canonical),
										 PG_GETARG_INT64(1));

	PG_FREE_IF_COPY(range, 0);
	return hash;
}
