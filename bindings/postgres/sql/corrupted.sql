-- Stored bytes that no function of the extension has written: a superuser may make them.
CREATE EXTENSION deno_semver;
CREATE CAST (bytea AS semver) WITHOUT FUNCTION;
CREATE CAST (bytea AS semver_range) WITHOUT FUNCTION;
CREATE CAST (bytea AS semver_bound) WITHOUT FUNCTION;
CREATE CAST (semver_range AS bytea) WITHOUT FUNCTION;
CREATE FUNCTION attempt(query text) RETURNS text LANGUAGE plpgsql AS $$
BEGIN
  EXECUTE query;
  RETURN 'no error';
EXCEPTION WHEN OTHERS THEN
  RETURN SQLERRM;
END $$;
-- versions: no key, a key without an end, and keys that stop within their numbers
SELECT bytes, call, attempt(format('SELECT ' || call, format('%L::bytea::semver', bytes)))
  FROM unnest('{"", "\\x4131", "\\x00", "\\x4100", "\\x5a3100", "\\x2100"}'::bytea[]) bytes,
    unnest('{"%s::text", "semver_send(%s)", "semver_key(%s)", "semver_is_pre(%s)", "%s < ''1.0.0''", "semver_precedence_hash(%s)", "%s <@ ''1''", "%s < ''A''::semver_bound"}'::text[]) call
  WHERE bytes IN ('', '\x4131') OR call IN ('semver_is_pre(%s)', '%s <@ ''1''');
-- two versions of one key whose strings are none
SELECT attempt('SELECT ''\x4131413141317e0078''::bytea::semver < ''\x4131413141317e0079''::bytea::semver');
SELECT attempt('SELECT v FROM unnest(ARRAY[''\x4131''::bytea, ''\x4132''::bytea]) b, LATERAL (SELECT b::semver AS v) x ORDER BY v');
-- bounds
SELECT call, attempt(format('SELECT ' || call, '''\x41''::bytea::semver_bound'))
  FROM unnest('{"%s::text", "semver_bound_send(%s)", "''1.0.0''::semver < %s"}'::text[]) call;
-- ranges: each call of each range that is too short, and of ranges of which one byte is another
SELECT attempt(format('SELECT ' || call, format('%L::bytea::semver_range', substr('^1.2 || 3.x'::semver_range::bytea, 1, size)))), count(*)
  FROM generate_series(0, length('^1.2 || 3.x'::semver_range::bytea) - 1) size,
    unnest('{"%s::text", "semver_range_send(%s)", "''1.0.0'' <@ %s", "semver_scans(%s)", "semver_range_low(%s)", "%s < ''1''", "%s = ''1''", "semver_range_hash(%s)"}'::text[]) call
  GROUP BY 1 ORDER BY 1;
SELECT call, bool_and(attempt(format('SELECT ' || call, format('%L::bytea::semver_range', set_byte('^1.2 || 3.x'::semver_range::bytea, at, byte)))) IS NOT NULL) AS ends
  FROM generate_series(0, length('^1.2 || 3.x'::semver_range::bytea) - 1) at, unnest('{0, 1, 127, 128, 255}'::int[]) byte,
    unnest('{"semver_range_send(%s)", "''1.0.0'' <@ %s", "''1.0.0-a'' <@ %s", "semver_scans(%s)", "semver_range_low(%s)", "%s < ''1''", "%s = ''1''", "semver_range_hash(%s)"}'::text[]) call
  GROUP BY 1 ORDER BY call COLLATE "C";
-- a sort of a range whose string is none
SELECT attempt(format('SELECT r FROM unnest(ARRAY[%L::bytea::semver_range, ''2'', ''3'']) r ORDER BY r', set_byte('1.2.3'::semver_range::bytea, length('1.2.3'::semver_range::bytea) - 3, 33)));
DROP FUNCTION attempt;
DROP CAST (bytea AS semver);
DROP CAST (bytea AS semver_range);
DROP CAST (bytea AS semver_bound);
DROP CAST (semver_range AS bytea);
DROP EXTENSION deno_semver;
