/* SPDX-License-Identifier: MIT */
/*
 * errors.c
 *		Strings and errors.
 */
#include "postgres.h"

#include "deno_semver.h"

#include "catalog/namespace.h"
#include "lib/stringinfo.h"
#include "mb/pg_wchar.h"
#include "utils/builtins.h"
#include "utils/guc.h"
#include "utils/jsonb.h"
#include "utils/numeric.h"

#ifdef PG_MODULE_MAGIC_EXT
PG_MODULE_MAGIC_EXT(
					.name = "deno_semver",
					.version = SEMVER_VERSION
);
#else
PG_MODULE_MAGIC;
#endif

/* PostgreSQL 15 has no soft errors. */
#if PG_VERSION_NUM < 160000
#define errsave(context, ...) ereport(ERROR, __VA_ARGS__)
#endif

#define MOST_OF_RANGE 65536

/* How many bytes of a string an error shows before its place, and behind it. */
#define AROUND 40

static int	max_length = SV_MOST_TRIED;

PGDLLEXPORT void _PG_init(void);

/*
 * The input of versions is immutable, and raises an error above the limit.  So
 * the limit is that of the server, and no session can have another one.  What
 * semver_try makes is input where a dump is restored, so it may not be less.
 */
void
_PG_init(void)
{
	if (semver_api() != SEMVER_API)
		elog(ERROR, "the library has the API %u, and deno_semver needs %d",
			 semver_api(), SEMVER_API);
	DefineCustomIntVariable("deno_semver.max_length",
							"Sets how many bytes a version may have.",
							NULL,
							&max_length,
							SV_MOST_TRIED, SV_MOST_TRIED, MOST_OF_RANGE,
							PGC_SIGHUP,
							0,
							NULL, NULL, NULL);
	MarkGUCPrefixReserved("deno_semver");
}

/* ---- strings */

void
sv_begin(sv_written *it)
{
	it->at = it->near;
	it->room = sizeof(it->near);
	it->len = 0;
}

/*
 * Whether a call must be repeated, since it had too little room, and has
 * enough now.
 */
bool
sv_must_repeat(sv_written *it)
{
	if (it->len <= it->room)
		return false;
	it->at = palloc(it->len);
	it->room = it->len;
	return true;
}

/* Frees what a call wrote, where it would stay for long. */
void
sv_end(sv_written *it)
{
	if (it->at != it->near)
		pfree(it->at);
}

/* Each encoding of a server has ASCII as it is. */
static bool
is_ascii(const char *at, int len)
{
	for (int n = 0; n < len; n++)
	{
		if (IS_HIGHBIT_SET(at[n]))
			return false;
	}
	return true;
}

/*
 * A string in UTF-8.  What has no UTF-8 becomes a byte that isn't, which the
 * library rejects: an error of the conversion wouldn't be soft, and semver_try
 * has none.  A database in SQL_ASCII has any bytes, which the library checks.
 */
static const char *
to_utf8(const char *at, int len)
{
	int			encoding = GetDatabaseEncoding();
	Oid			conversion;
	Size		room;
	char	   *utf8;

	if (encoding == PG_UTF8 || encoding == PG_SQL_ASCII || is_ascii(at, len))
		return at;
	conversion = FindDefaultConversionProc(encoding, PG_UTF8);
	if (!OidIsValid(conversion))
		return "\xFF";
	room = (Size) len * MAX_CONVERSION_GROWTH + 1;
	utf8 = MemoryContextAllocHuge(CurrentMemoryContext, room);
	if (pg_do_encoding_conversion_buf(conversion, encoding, PG_UTF8,
									  (unsigned char *) unconstify(char *, at), len,
									  (unsigned char *) utf8,
									  (int) Min(room, (Size) INT_MAX),
									  true) != len)
		return "\xFF";
	return utf8;
}

sv_string
sv_utf8(const char *string)
{
	const char *utf8 = to_utf8(string, (int) strlen(string));

	return sv_string_of(utf8, strlen(utf8));
}

sv_string
sv_utf8_of(const text *string)
{
	const char *at = VARDATA_ANY(string);
	int			len = VARSIZE_ANY_EXHDR(string);
	const char *utf8 = to_utf8(at, len);

	return sv_string_of(utf8, utf8 == at ? (size_t) len : strlen(utf8));
}

const char *
sv_server(const char *utf8, size_t len)
{
	char	   *copy = pnstrdup(utf8, len);

	if (is_ascii(utf8, (int) len))
		return copy;
	return pg_any_to_server(copy, (int) strlen(copy), PG_UTF8);
}

text *
sv_text(const char *utf8, size_t len)
{
	return cstring_to_text(sv_server(utf8, len));
}

uint32_t
sv_grammar(const text *name)
{
	static const char *const NAMES[] = {
		[SEMVER_NPM] = "npm",
		[SEMVER_NORMALIZED] = "normalized",
		[SEMVER_STRICT] = "strict"
	};
	size_t		len = VARSIZE_ANY_EXHDR(name);

	for (uint32_t grammar = 0; grammar < lengthof(NAMES); grammar++)
	{
		if (strlen(NAMES[grammar]) == len &&
			memcmp(NAMES[grammar], VARDATA_ANY(name), len) == 0)
			return grammar;
	}
	ereport(ERROR,
			(errcode(ERRCODE_INVALID_PARAMETER_VALUE),
			 errmsg("grammar \"%s\" does not exist", text_to_cstring(name)),
			 errhint("Use \"npm\", \"normalized\" or \"strict\".")));
	return SEMVER_NPM;			/* keep compiler quiet */
}

/* ---- errors */

void
sv_reject_memory(void)
{
	ereport(ERROR,
			(errcode(ERRCODE_OUT_OF_MEMORY),
			 errmsg("out of memory")));
}

/* Errors that have nothing to do with a string. */
static void
reject_call(int32_t code)
{
	if (code == SEMVER_NO_MEMORY)
		sv_reject_memory();
	if (code == SEMVER_NO_VALUE || code == SEMVER_NO_GRAMMAR)
		elog(ERROR, "unexpected code %d", code);
}

static void
reject_bytes(Node *context, const char *type)
{
	errsave(context,
			(errcode(ERRCODE_CHARACTER_NOT_IN_REPERTOIRE),
			 errmsg("invalid byte sequence for type %s", type),
			 errdetail("The bytes are not UTF-8.")));
}

void
sv_reject_stored(const char *what)
{
	ereport(ERROR,
			(errcode(ERRCODE_DATA_CORRUPTED),
			 errmsg("stored %s is corrupted", what)));
}

static bool
is_inside(char byte)
{
	return (byte & 0xC0) == 0x80;
}

static int
characters(const char *at, size_t len)
{
	int			count = 0;

	for (size_t n = 0; n < len; n++)
		count += !is_inside(at[n]);
	return count;
}

/* The string around a byte, and below it a caret. */
static const char *
caret_at(sv_string string, size_t place)
{
	StringInfoData shown;
	size_t		from = place > AROUND ? place - AROUND : 0;
	size_t		to = string.len - place > AROUND ? place + AROUND : string.len;

	while (from > 0 && is_inside(string.at[from]))
		from--;
	while (to < string.len && is_inside(string.at[to]))
		to++;
	initStringInfo(&shown);
	if (from > 0)
		appendStringInfoString(&shown, "...");
	for (size_t n = from; n < to; n++)
	{
		unsigned char byte = string.at[n];

		appendStringInfoChar(&shown, byte < ' ' ? ' ' : byte);
	}
	if (to < string.len)
		appendStringInfoString(&shown, "...");
	appendStringInfoChar(&shown, '\n');
	appendStringInfoSpaces(&shown, (from > 0 ? 3 : 0) +
						   characters(string.at + from, place - from));
	appendStringInfoChar(&shown, '^');
	return sv_server(shown.data, shown.len);
}

/* The detail of an error: what is wrong, and where. */
static const char *
detail_of(const sv_written *message, sv_string string, size_t place)
{
	place = Min(place, string.len);
	return psprintf("%s\nAt character %d:\n%s",
					sv_server(message->at, message->len),
					characters(string.at, place) + 1,
					caret_at(string, place));
}

void
sv_reject_version(Node *context, sv_string version, int32_t code)
{
	sv_written	message;
	size_t		place = 0;

	reject_call(code);
	if (code == SEMVER_NOT_UTF8)
	{
		reject_bytes(context, "semver");
		return;
	}
	SV_WRITES(code, &message, semver_version(SV_BYTES(version),
											 SV_OUT(&message)));
	reject_call(code);
	reject_call(semver_version_error(SV_BYTES(version), &place));
	errsave(context,
			(errcode(ERRCODE_INVALID_TEXT_REPRESENTATION),
			 errmsg("invalid input syntax for type semver: \"%s\"",
					sv_server(SV_BYTES(version))),
			 errdetail_internal("%s", detail_of(&message, version, place))));
}

static JsonbValue *
member(JsonbValue *object, const char *name)
{
	return getKeyJsonValueFromContainer(object->val.binary.data, name,
										strlen(name), NULL);
}

/*
 * The first error of a range, from the JSON of semver_errors: where it is, and
 * what could be there.
 */
static size_t
first_error(uint32_t grammar, sv_string range, StringInfo expected)
{
	sv_written	json;
	int32_t		code;
	Jsonb	   *errors;
	JsonbValue *error;
	JsonbValue *kinds;
	Datum		start;

	SV_WRITES(code, &json, semver_errors(grammar, SV_BYTES(range),
										 SV_OUT(&json)));
	reject_call(code);
	initStringInfo(expected);
	errors = DatumGetJsonbP(DirectFunctionCall1(jsonb_in,
												CStringGetDatum(sv_server(json.at, json.len))));
	error = getIthJsonbValueFromContainer(&errors->root, 0);
	if (error == NULL)
		return 0;
	kinds = member(error, "expected");
	for (uint32 n = 0; n < JsonContainerSize(kinds->val.binary.data); n++)
	{
		/* A kind has a name, such as digit, or is a character in quotes. */
		JsonbValue *kind = getIthJsonbValueFromContainer(kinds->val.binary.data, n);
		const char *quote = kind->val.string.len > 1 ? "" : "\"";

		if (n > 0)
			appendStringInfoString(expected, ", ");
		appendStringInfo(expected, "%s%.*s%s", quote,
						 kind->val.string.len, kind->val.string.val, quote);
	}
	start = NumericGetDatum(member(error, "start")->val.numeric);
	return DatumGetInt32(DirectFunctionCall1(numeric_int4, start));
}

void
sv_reject_range(Node *context, uint32_t grammar, sv_string range, int32_t code)
{
	sv_written	message;
	StringInfoData expected;
	size_t		place;

	reject_call(code);
	if (code == SEMVER_NOT_UTF8)
	{
		reject_bytes(context, "semver_range");
		return;
	}
	if (code == SEMVER_TAG)
	{
		errsave(context,
				(errcode(ERRCODE_INVALID_TEXT_REPRESENTATION),
				 errmsg("\"%s\" is a tag, and no range of versions",
						sv_server(SV_BYTES(range))),
				 errhint("Only the registry knows which version a tag names. Store tags in a column of their own.")));
		return;
	}
	SV_WRITES(code, &message, semver_normal(grammar, SV_BYTES(range),
											SV_OUT(&message)));
	reject_call(code);
	place = first_error(grammar, range, &expected);
	errsave(context,
			(errcode(ERRCODE_INVALID_TEXT_REPRESENTATION),
			 errmsg("invalid input syntax for type semver_range: \"%s\"",
					sv_server(SV_BYTES(range))),
			 errdetail_internal("%s", detail_of(&message, range, place)),
			 expected.len > 0 ? errhint("Expected there: %s.", expected.data) : 0));
}

void
sv_reject_bound(Node *context, const char *bound)
{
	errsave(context,
			(errcode(ERRCODE_INVALID_TEXT_REPRESENTATION),
			 errmsg("invalid input syntax for type semver_bound: \"%s\"", bound)));
}

static void
reject_length(Node *context, sv_string string, const char *type, int most,
			  const char *hint)
{
	errsave(context,
			(errcode(ERRCODE_PROGRAM_LIMIT_EXCEEDED),
			 errmsg("string is too long for type %s (%zu bytes, maximum %d)",
					type, string.len, most),
			 hint ? errhint("%s", hint) : 0));
}

/* Whether a version is too long, which is an error. */
bool
sv_is_long_version(Node *context, sv_string version)
{
	if (version.len <= (size_t) max_length)
		return false;
	reject_length(context, version, "semver", max_length,
				  "The setting deno_semver.max_length is the limit.");
	return true;
}

/* A call of the library can't be cancelled, so ranges have a limit, too. */
bool
sv_is_long_range(Node *context, sv_string range)
{
	if (range.len <= MOST_OF_RANGE)
		return false;
	reject_length(context, range, "semver_range", MOST_OF_RANGE, NULL);
	return true;
}
