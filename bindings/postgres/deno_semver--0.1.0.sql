-- SPDX-License-Identifier: MIT
\echo Use "CREATE EXTENSION deno_semver" to load this file. \quit

-- ---- versions

CREATE TYPE semver;

CREATE FUNCTION semver_in(cstring) RETURNS semver AS 'MODULE_PATHNAME', 'deno_semver_in'
  LANGUAGE C IMMUTABLE STRICT PARALLEL SAFE COST 10;
CREATE FUNCTION semver_out(semver) RETURNS cstring AS 'MODULE_PATHNAME', 'deno_semver_out'
  LANGUAGE C IMMUTABLE STRICT PARALLEL SAFE;
CREATE FUNCTION semver_recv(internal) RETURNS semver AS 'MODULE_PATHNAME', 'deno_semver_recv'
  LANGUAGE C IMMUTABLE STRICT PARALLEL SAFE COST 10;
CREATE FUNCTION semver_send(semver) RETURNS bytea AS 'MODULE_PATHNAME', 'deno_semver_send'
  LANGUAGE C IMMUTABLE STRICT PARALLEL SAFE;

CREATE TYPE semver (
  INPUT = semver_in, OUTPUT = semver_out, RECEIVE = semver_recv, SEND = semver_send, INTERNALLENGTH = VARIABLE, ALIGNMENT = int4, STORAGE = extended
);
COMMENT ON TYPE semver IS 'a version of an npm or JSR package, ordered by precedence and then by its build';
CREATE CAST (text AS semver) WITH INOUT AS ASSIGNMENT;
CREATE CAST (varchar AS semver) WITH INOUT AS ASSIGNMENT;

-- Keys compare by their bytes, also in a database with another collation.
CREATE DOMAIN semver_sort_key AS text COLLATE "C";
COMMENT ON DOMAIN semver_sort_key IS 'a string whose bytes compare as versions do by precedence';

CREATE FUNCTION semver_key(semver) RETURNS semver_sort_key AS 'MODULE_PATHNAME', 'deno_semver_key'
  LANGUAGE C IMMUTABLE STRICT PARALLEL SAFE;
CREATE FUNCTION semver_is_pre(semver) RETURNS boolean AS 'MODULE_PATHNAME', 'deno_semver_is_pre'
  LANGUAGE C IMMUTABLE STRICT PARALLEL SAFE;
CREATE FUNCTION semver_try(text) RETURNS semver AS 'MODULE_PATHNAME', 'deno_semver_try'
  LANGUAGE C IMMUTABLE STRICT PARALLEL SAFE COST 10;
COMMENT ON FUNCTION semver_key(semver) IS 'the string whose bytes compare as versions do by precedence';
COMMENT ON FUNCTION semver_is_pre(semver) IS 'whether the version is a pre-release';
COMMENT ON FUNCTION semver_try(text) IS 'the version that a string is, or NULL if it is none';

-- ---- ranges

CREATE TYPE semver_range;

CREATE FUNCTION semver_range_in(cstring) RETURNS semver_range AS 'MODULE_PATHNAME', 'deno_semver_range_in'
  LANGUAGE C IMMUTABLE STRICT PARALLEL SAFE COST 20;
CREATE FUNCTION semver_range_out(semver_range) RETURNS cstring AS 'MODULE_PATHNAME', 'deno_semver_range_out'
  LANGUAGE C IMMUTABLE STRICT PARALLEL SAFE;
CREATE FUNCTION semver_range_recv(internal) RETURNS semver_range AS 'MODULE_PATHNAME', 'deno_semver_range_recv'
  LANGUAGE C IMMUTABLE STRICT PARALLEL SAFE COST 20;
CREATE FUNCTION semver_range_send(semver_range) RETURNS bytea AS 'MODULE_PATHNAME', 'deno_semver_range_send'
  LANGUAGE C IMMUTABLE STRICT PARALLEL SAFE;

CREATE TYPE semver_range (
  INPUT = semver_range_in, OUTPUT = semver_range_out, RECEIVE = semver_range_recv, SEND = semver_range_send, INTERNALLENGTH = VARIABLE,
  ALIGNMENT = int4, STORAGE = extended
);
COMMENT ON TYPE semver_range IS 'a range of npm''s grammar, which matches pre-releases by npm''s rule';
CREATE CAST (text AS semver_range) WITH INOUT AS ASSIGNMENT;
CREATE CAST (varchar AS semver_range) WITH INOUT AS ASSIGNMENT;

-- A bound of scans: what an index of versions is scanned from, or up to.
CREATE TYPE semver_bound;

CREATE FUNCTION semver_bound_in(cstring) RETURNS semver_bound AS 'MODULE_PATHNAME', 'deno_semver_bound_in'
  LANGUAGE C IMMUTABLE STRICT PARALLEL SAFE;
CREATE FUNCTION semver_bound_out(semver_bound) RETURNS cstring AS 'MODULE_PATHNAME', 'deno_semver_bound_out'
  LANGUAGE C IMMUTABLE STRICT PARALLEL SAFE;
CREATE FUNCTION semver_bound_recv(internal) RETURNS semver_bound AS 'MODULE_PATHNAME', 'deno_semver_bound_recv'
  LANGUAGE C IMMUTABLE STRICT PARALLEL SAFE;
CREATE FUNCTION semver_bound_send(semver_bound) RETURNS bytea AS 'MODULE_PATHNAME', 'deno_semver_bound_send'
  LANGUAGE C IMMUTABLE STRICT PARALLEL SAFE;

CREATE TYPE semver_bound (
  INPUT = semver_bound_in, OUTPUT = semver_bound_out, RECEIVE = semver_bound_recv, SEND = semver_bound_send, INTERNALLENGTH = VARIABLE,
  ALIGNMENT = int4, STORAGE = extended
);
COMMENT ON TYPE semver_bound IS 'a bound between versions, which plans have';

CREATE FUNCTION semver_range_low(semver_range) RETURNS semver_bound AS 'MODULE_PATHNAME', 'deno_semver_range_low'
  LANGUAGE C IMMUTABLE STRICT PARALLEL SAFE;
CREATE FUNCTION semver_range_high(semver_range) RETURNS semver_bound AS 'MODULE_PATHNAME', 'deno_semver_range_high'
  LANGUAGE C IMMUTABLE STRICT PARALLEL SAFE;
CREATE FUNCTION semver_scans(semver_range, OUT is_pre boolean, OUT low semver_sort_key, OUT high semver_sort_key) RETURNS SETOF record AS 'MODULE_PATHNAME', 'deno_semver_scans'
  LANGUAGE C IMMUTABLE STRICT PARALLEL SAFE ROWS 2;
CREATE FUNCTION semver_scans(range text, pre_releases boolean, grammar text DEFAULT 'npm', OUT is_pre boolean, OUT low semver_sort_key, OUT high semver_sort_key) RETURNS SETOF record AS 'MODULE_PATHNAME', 'deno_semver_scans_by'
  LANGUAGE C IMMUTABLE STRICT PARALLEL SAFE ROWS 2 COST 20;
CREATE FUNCTION semver_canonical(range text, grammar text DEFAULT 'npm') RETURNS text AS 'MODULE_PATHNAME', 'deno_semver_canonical'
  LANGUAGE C IMMUTABLE STRICT PARALLEL SAFE COST 20;
COMMENT ON FUNCTION semver_scans(semver_range) IS 'what a range matches: the keys from low on and below high, of releases or of pre-releases';
COMMENT ON FUNCTION semver_scans(text, boolean, text) IS 'the scans of a range given as a string; you choose the grammar, and whether every pre-release matches';
COMMENT ON FUNCTION semver_canonical(text, text) IS 'the canonical form of a range, or the tag';

-- ---- orders

CREATE FUNCTION semver_lt(semver, semver) RETURNS boolean AS 'MODULE_PATHNAME', 'deno_semver_lt'
  LANGUAGE C IMMUTABLE STRICT PARALLEL SAFE;
CREATE FUNCTION semver_le(semver, semver) RETURNS boolean AS 'MODULE_PATHNAME', 'deno_semver_le'
  LANGUAGE C IMMUTABLE STRICT PARALLEL SAFE;
CREATE FUNCTION semver_eq(semver, semver) RETURNS boolean AS 'MODULE_PATHNAME', 'deno_semver_eq'
  LANGUAGE C IMMUTABLE STRICT PARALLEL SAFE;
CREATE FUNCTION semver_ne(semver, semver) RETURNS boolean AS 'MODULE_PATHNAME', 'deno_semver_ne'
  LANGUAGE C IMMUTABLE STRICT PARALLEL SAFE;
CREATE FUNCTION semver_ge(semver, semver) RETURNS boolean AS 'MODULE_PATHNAME', 'deno_semver_ge'
  LANGUAGE C IMMUTABLE STRICT PARALLEL SAFE;
CREATE FUNCTION semver_gt(semver, semver) RETURNS boolean AS 'MODULE_PATHNAME', 'deno_semver_gt'
  LANGUAGE C IMMUTABLE STRICT PARALLEL SAFE;
CREATE FUNCTION semver_cmp(semver, semver) RETURNS integer AS 'MODULE_PATHNAME', 'deno_semver_cmp'
  LANGUAGE C IMMUTABLE STRICT PARALLEL SAFE;

CREATE FUNCTION semver_lt(semver, semver_bound) RETURNS boolean AS 'MODULE_PATHNAME', 'deno_semver_with_bound_lt'
  LANGUAGE C IMMUTABLE STRICT PARALLEL SAFE;
CREATE FUNCTION semver_le(semver, semver_bound) RETURNS boolean AS 'MODULE_PATHNAME', 'deno_semver_with_bound_le'
  LANGUAGE C IMMUTABLE STRICT PARALLEL SAFE;
CREATE FUNCTION semver_eq(semver, semver_bound) RETURNS boolean AS 'MODULE_PATHNAME', 'deno_semver_with_bound_eq'
  LANGUAGE C IMMUTABLE STRICT PARALLEL SAFE;
CREATE FUNCTION semver_ne(semver, semver_bound) RETURNS boolean AS 'MODULE_PATHNAME', 'deno_semver_with_bound_ne'
  LANGUAGE C IMMUTABLE STRICT PARALLEL SAFE;
CREATE FUNCTION semver_ge(semver, semver_bound) RETURNS boolean AS 'MODULE_PATHNAME', 'deno_semver_with_bound_ge'
  LANGUAGE C IMMUTABLE STRICT PARALLEL SAFE;
CREATE FUNCTION semver_gt(semver, semver_bound) RETURNS boolean AS 'MODULE_PATHNAME', 'deno_semver_with_bound_gt'
  LANGUAGE C IMMUTABLE STRICT PARALLEL SAFE;
CREATE FUNCTION semver_cmp(semver, semver_bound) RETURNS integer AS 'MODULE_PATHNAME', 'deno_semver_with_bound_cmp'
  LANGUAGE C IMMUTABLE STRICT PARALLEL SAFE;

CREATE FUNCTION semver_lt(semver_bound, semver) RETURNS boolean AS 'MODULE_PATHNAME', 'deno_semver_bound_with_lt'
  LANGUAGE C IMMUTABLE STRICT PARALLEL SAFE;
CREATE FUNCTION semver_le(semver_bound, semver) RETURNS boolean AS 'MODULE_PATHNAME', 'deno_semver_bound_with_le'
  LANGUAGE C IMMUTABLE STRICT PARALLEL SAFE;
CREATE FUNCTION semver_eq(semver_bound, semver) RETURNS boolean AS 'MODULE_PATHNAME', 'deno_semver_bound_with_eq'
  LANGUAGE C IMMUTABLE STRICT PARALLEL SAFE;
CREATE FUNCTION semver_ne(semver_bound, semver) RETURNS boolean AS 'MODULE_PATHNAME', 'deno_semver_bound_with_ne'
  LANGUAGE C IMMUTABLE STRICT PARALLEL SAFE;
CREATE FUNCTION semver_ge(semver_bound, semver) RETURNS boolean AS 'MODULE_PATHNAME', 'deno_semver_bound_with_ge'
  LANGUAGE C IMMUTABLE STRICT PARALLEL SAFE;
CREATE FUNCTION semver_gt(semver_bound, semver) RETURNS boolean AS 'MODULE_PATHNAME', 'deno_semver_bound_with_gt'
  LANGUAGE C IMMUTABLE STRICT PARALLEL SAFE;
CREATE FUNCTION semver_cmp(semver_bound, semver) RETURNS integer AS 'MODULE_PATHNAME', 'deno_semver_bound_with_cmp'
  LANGUAGE C IMMUTABLE STRICT PARALLEL SAFE;

CREATE FUNCTION semver_lt(semver_bound, semver_bound) RETURNS boolean AS 'MODULE_PATHNAME', 'deno_semver_bound_lt'
  LANGUAGE C IMMUTABLE STRICT PARALLEL SAFE;
CREATE FUNCTION semver_le(semver_bound, semver_bound) RETURNS boolean AS 'MODULE_PATHNAME', 'deno_semver_bound_le'
  LANGUAGE C IMMUTABLE STRICT PARALLEL SAFE;
CREATE FUNCTION semver_eq(semver_bound, semver_bound) RETURNS boolean AS 'MODULE_PATHNAME', 'deno_semver_bound_eq'
  LANGUAGE C IMMUTABLE STRICT PARALLEL SAFE;
CREATE FUNCTION semver_ne(semver_bound, semver_bound) RETURNS boolean AS 'MODULE_PATHNAME', 'deno_semver_bound_ne'
  LANGUAGE C IMMUTABLE STRICT PARALLEL SAFE;
CREATE FUNCTION semver_ge(semver_bound, semver_bound) RETURNS boolean AS 'MODULE_PATHNAME', 'deno_semver_bound_ge'
  LANGUAGE C IMMUTABLE STRICT PARALLEL SAFE;
CREATE FUNCTION semver_gt(semver_bound, semver_bound) RETURNS boolean AS 'MODULE_PATHNAME', 'deno_semver_bound_gt'
  LANGUAGE C IMMUTABLE STRICT PARALLEL SAFE;
CREATE FUNCTION semver_cmp(semver_bound, semver_bound) RETURNS integer AS 'MODULE_PATHNAME', 'deno_semver_bound_cmp'
  LANGUAGE C IMMUTABLE STRICT PARALLEL SAFE;

-- How many rows the planner expects beside a bound.
CREATE FUNCTION semver_bound_ltsel(internal, oid, internal, integer) RETURNS double precision AS 'MODULE_PATHNAME', 'deno_semver_bound_ltsel'
  LANGUAGE C STABLE STRICT PARALLEL SAFE;
CREATE FUNCTION semver_bound_gtsel(internal, oid, internal, integer) RETURNS double precision AS 'MODULE_PATHNAME', 'deno_semver_bound_gtsel'
  LANGUAGE C STABLE STRICT PARALLEL SAFE;

CREATE OPERATOR < (LEFTARG = semver, RIGHTARG = semver, FUNCTION = semver_lt, COMMUTATOR = >, NEGATOR = >=, RESTRICT = scalarltsel, JOIN = scalarltjoinsel);
CREATE OPERATOR <= (LEFTARG = semver, RIGHTARG = semver, FUNCTION = semver_le, COMMUTATOR = >=, NEGATOR = >, RESTRICT = scalarlesel, JOIN = scalarlejoinsel);
CREATE OPERATOR = (LEFTARG = semver, RIGHTARG = semver, FUNCTION = semver_eq, COMMUTATOR = =, NEGATOR = <>, RESTRICT = eqsel, JOIN = eqjoinsel, HASHES, MERGES);
CREATE OPERATOR >= (LEFTARG = semver, RIGHTARG = semver, FUNCTION = semver_ge, COMMUTATOR = <=, NEGATOR = <, RESTRICT = scalargesel, JOIN = scalargejoinsel);
CREATE OPERATOR > (LEFTARG = semver, RIGHTARG = semver, FUNCTION = semver_gt, COMMUTATOR = <, NEGATOR = <=, RESTRICT = scalargtsel, JOIN = scalargtjoinsel);
CREATE OPERATOR <> (LEFTARG = semver, RIGHTARG = semver, FUNCTION = semver_ne, COMMUTATOR = <>, NEGATOR = =, RESTRICT = neqsel, JOIN = neqjoinsel);

CREATE OPERATOR < (LEFTARG = semver, RIGHTARG = semver_bound, FUNCTION = semver_lt, COMMUTATOR = >, NEGATOR = >=, RESTRICT = semver_bound_ltsel, JOIN = scalarltjoinsel);
CREATE OPERATOR <= (LEFTARG = semver, RIGHTARG = semver_bound, FUNCTION = semver_le, COMMUTATOR = >=, NEGATOR = >, RESTRICT = semver_bound_ltsel, JOIN = scalarlejoinsel);
CREATE OPERATOR = (LEFTARG = semver, RIGHTARG = semver_bound, FUNCTION = semver_eq, COMMUTATOR = =, NEGATOR = <>, RESTRICT = eqsel, JOIN = eqjoinsel, MERGES);
CREATE OPERATOR >= (LEFTARG = semver, RIGHTARG = semver_bound, FUNCTION = semver_ge, COMMUTATOR = <=, NEGATOR = <, RESTRICT = semver_bound_gtsel, JOIN = scalargejoinsel);
CREATE OPERATOR > (LEFTARG = semver, RIGHTARG = semver_bound, FUNCTION = semver_gt, COMMUTATOR = <, NEGATOR = <=, RESTRICT = semver_bound_gtsel, JOIN = scalargtjoinsel);
CREATE OPERATOR <> (LEFTARG = semver, RIGHTARG = semver_bound, FUNCTION = semver_ne, COMMUTATOR = <>, NEGATOR = =, RESTRICT = neqsel, JOIN = neqjoinsel);

CREATE OPERATOR < (LEFTARG = semver_bound, RIGHTARG = semver, FUNCTION = semver_lt, COMMUTATOR = >, NEGATOR = >=, RESTRICT = semver_bound_ltsel, JOIN = scalarltjoinsel);
CREATE OPERATOR <= (LEFTARG = semver_bound, RIGHTARG = semver, FUNCTION = semver_le, COMMUTATOR = >=, NEGATOR = >, RESTRICT = semver_bound_ltsel, JOIN = scalarlejoinsel);
CREATE OPERATOR = (LEFTARG = semver_bound, RIGHTARG = semver, FUNCTION = semver_eq, COMMUTATOR = =, NEGATOR = <>, RESTRICT = eqsel, JOIN = eqjoinsel, MERGES);
CREATE OPERATOR >= (LEFTARG = semver_bound, RIGHTARG = semver, FUNCTION = semver_ge, COMMUTATOR = <=, NEGATOR = <, RESTRICT = semver_bound_gtsel, JOIN = scalargejoinsel);
CREATE OPERATOR > (LEFTARG = semver_bound, RIGHTARG = semver, FUNCTION = semver_gt, COMMUTATOR = <, NEGATOR = <=, RESTRICT = semver_bound_gtsel, JOIN = scalargtjoinsel);
CREATE OPERATOR <> (LEFTARG = semver_bound, RIGHTARG = semver, FUNCTION = semver_ne, COMMUTATOR = <>, NEGATOR = =, RESTRICT = neqsel, JOIN = neqjoinsel);

CREATE OPERATOR < (LEFTARG = semver_bound, RIGHTARG = semver_bound, FUNCTION = semver_lt, COMMUTATOR = >, NEGATOR = >=, RESTRICT = scalarltsel, JOIN = scalarltjoinsel);
CREATE OPERATOR <= (LEFTARG = semver_bound, RIGHTARG = semver_bound, FUNCTION = semver_le, COMMUTATOR = >=, NEGATOR = >, RESTRICT = scalarlesel, JOIN = scalarlejoinsel);
CREATE OPERATOR = (LEFTARG = semver_bound, RIGHTARG = semver_bound, FUNCTION = semver_eq, COMMUTATOR = =, NEGATOR = <>, RESTRICT = eqsel, JOIN = eqjoinsel, MERGES);
CREATE OPERATOR >= (LEFTARG = semver_bound, RIGHTARG = semver_bound, FUNCTION = semver_ge, COMMUTATOR = <=, NEGATOR = <, RESTRICT = scalargesel, JOIN = scalargejoinsel);
CREATE OPERATOR > (LEFTARG = semver_bound, RIGHTARG = semver_bound, FUNCTION = semver_gt, COMMUTATOR = <, NEGATOR = <=, RESTRICT = scalargtsel, JOIN = scalargtjoinsel);
CREATE OPERATOR <> (LEFTARG = semver_bound, RIGHTARG = semver_bound, FUNCTION = semver_ne, COMMUTATOR = <>, NEGATOR = =, RESTRICT = neqsel, JOIN = neqjoinsel);

CREATE FUNCTION semver_sortsupport(internal) RETURNS void AS 'MODULE_PATHNAME', 'deno_semver_sortsupport'
  LANGUAGE C IMMUTABLE STRICT PARALLEL SAFE;
CREATE FUNCTION semver_hash(semver) RETURNS integer AS 'MODULE_PATHNAME', 'deno_semver_hash'
  LANGUAGE C IMMUTABLE STRICT PARALLEL SAFE;
CREATE FUNCTION semver_hash_extended(semver, bigint) RETURNS bigint AS 'MODULE_PATHNAME', 'deno_semver_hash_extended'
  LANGUAGE C IMMUTABLE STRICT PARALLEL SAFE;

-- Versions are equal if they are the same, so an index keeps equal ones once.
CREATE OPERATOR FAMILY semver_ops USING btree;
CREATE OPERATOR CLASS semver_ops DEFAULT FOR TYPE semver USING btree FAMILY semver_ops AS
  OPERATOR 1 <, OPERATOR 2 <=, OPERATOR 3 =, OPERATOR 4 >=, OPERATOR 5 >,
  FUNCTION 1 semver_cmp(semver, semver), FUNCTION 2 semver_sortsupport(internal), FUNCTION 4 btequalimage(oid);
CREATE OPERATOR CLASS semver_bound_ops DEFAULT FOR TYPE semver_bound USING btree FAMILY semver_ops AS
  OPERATOR 1 <, OPERATOR 2 <=, OPERATOR 3 =, OPERATOR 4 >=, OPERATOR 5 >, FUNCTION 1 semver_cmp(semver_bound, semver_bound);
ALTER OPERATOR FAMILY semver_ops USING btree ADD
  OPERATOR 1 < (semver, semver_bound), OPERATOR 2 <= (semver, semver_bound), OPERATOR 3 = (semver, semver_bound),
  OPERATOR 4 >= (semver, semver_bound), OPERATOR 5 > (semver, semver_bound), FUNCTION 1 semver_cmp(semver, semver_bound),
  OPERATOR 1 < (semver_bound, semver), OPERATOR 2 <= (semver_bound, semver), OPERATOR 3 = (semver_bound, semver),
  OPERATOR 4 >= (semver_bound, semver), OPERATOR 5 > (semver_bound, semver), FUNCTION 1 semver_cmp(semver_bound, semver);
CREATE OPERATOR CLASS semver_ops DEFAULT FOR TYPE semver USING hash AS
  OPERATOR 1 =, FUNCTION 1 semver_hash(semver), FUNCTION 2 semver_hash_extended(semver, bigint);

-- The order by precedence alone, in which versions that differ only in the build are equal.

CREATE FUNCTION semver_precedence_lt(semver, semver) RETURNS boolean AS 'MODULE_PATHNAME', 'deno_semver_precedence_lt'
  LANGUAGE C IMMUTABLE STRICT PARALLEL SAFE;
CREATE FUNCTION semver_precedence_le(semver, semver) RETURNS boolean AS 'MODULE_PATHNAME', 'deno_semver_precedence_le'
  LANGUAGE C IMMUTABLE STRICT PARALLEL SAFE;
CREATE FUNCTION semver_precedence_eq(semver, semver) RETURNS boolean AS 'MODULE_PATHNAME', 'deno_semver_precedence_eq'
  LANGUAGE C IMMUTABLE STRICT PARALLEL SAFE;
CREATE FUNCTION semver_precedence_ne(semver, semver) RETURNS boolean AS 'MODULE_PATHNAME', 'deno_semver_precedence_ne'
  LANGUAGE C IMMUTABLE STRICT PARALLEL SAFE;
CREATE FUNCTION semver_precedence_ge(semver, semver) RETURNS boolean AS 'MODULE_PATHNAME', 'deno_semver_precedence_ge'
  LANGUAGE C IMMUTABLE STRICT PARALLEL SAFE;
CREATE FUNCTION semver_precedence_gt(semver, semver) RETURNS boolean AS 'MODULE_PATHNAME', 'deno_semver_precedence_gt'
  LANGUAGE C IMMUTABLE STRICT PARALLEL SAFE;
CREATE FUNCTION semver_compare(semver, semver) RETURNS integer AS 'MODULE_PATHNAME', 'deno_semver_precedence_cmp'
  LANGUAGE C IMMUTABLE STRICT PARALLEL SAFE;
CREATE OPERATOR #< (LEFTARG = semver, RIGHTARG = semver, FUNCTION = semver_precedence_lt, COMMUTATOR = #>, NEGATOR = #>=, RESTRICT = scalarltsel, JOIN = scalarltjoinsel);
CREATE OPERATOR #<= (LEFTARG = semver, RIGHTARG = semver, FUNCTION = semver_precedence_le, COMMUTATOR = #>=, NEGATOR = #>, RESTRICT = scalarlesel, JOIN = scalarlejoinsel);
CREATE OPERATOR #= (LEFTARG = semver, RIGHTARG = semver, FUNCTION = semver_precedence_eq, COMMUTATOR = #=, NEGATOR = #<>, RESTRICT = eqsel, JOIN = eqjoinsel, HASHES, MERGES);
CREATE OPERATOR #>= (LEFTARG = semver, RIGHTARG = semver, FUNCTION = semver_precedence_ge, COMMUTATOR = #<=, NEGATOR = #<, RESTRICT = scalargesel, JOIN = scalargejoinsel);
CREATE OPERATOR #> (LEFTARG = semver, RIGHTARG = semver, FUNCTION = semver_precedence_gt, COMMUTATOR = #<, NEGATOR = #<=, RESTRICT = scalargtsel, JOIN = scalargtjoinsel);
CREATE OPERATOR #<> (LEFTARG = semver, RIGHTARG = semver, FUNCTION = semver_precedence_ne, COMMUTATOR = #<>, NEGATOR = #=, RESTRICT = neqsel, JOIN = neqjoinsel);
COMMENT ON FUNCTION semver_compare(semver, semver) IS '-1, 0 or 1: the order by precedence, which ignores builds';

CREATE FUNCTION semver_precedence_sortsupport(internal) RETURNS void AS 'MODULE_PATHNAME', 'deno_semver_precedence_sortsupport'
  LANGUAGE C IMMUTABLE STRICT PARALLEL SAFE;
CREATE FUNCTION semver_precedence_hash(semver) RETURNS integer AS 'MODULE_PATHNAME', 'deno_semver_precedence_hash'
  LANGUAGE C IMMUTABLE STRICT PARALLEL SAFE;
CREATE FUNCTION semver_precedence_hash_extended(semver, bigint) RETURNS bigint AS 'MODULE_PATHNAME', 'deno_semver_precedence_hash_extended'
  LANGUAGE C IMMUTABLE STRICT PARALLEL SAFE;
CREATE OPERATOR CLASS semver_precedence_ops FOR TYPE semver USING btree AS
  OPERATOR 1 #<, OPERATOR 2 #<=, OPERATOR 3 #=, OPERATOR 4 #>=, OPERATOR 5 #>,
  FUNCTION 1 semver_compare(semver, semver), FUNCTION 2 semver_precedence_sortsupport(internal);
-- Bounds compare by precedence, so an index of this class answers which versions match, too.
ALTER OPERATOR FAMILY semver_precedence_ops USING btree ADD
  OPERATOR 1 < (semver, semver_bound), OPERATOR 2 <= (semver, semver_bound), OPERATOR 3 = (semver, semver_bound),
  OPERATOR 4 >= (semver, semver_bound), OPERATOR 5 > (semver, semver_bound), FUNCTION 1 semver_cmp(semver, semver_bound),
  OPERATOR 1 < (semver_bound, semver), OPERATOR 2 <= (semver_bound, semver), OPERATOR 3 = (semver_bound, semver),
  OPERATOR 4 >= (semver_bound, semver), OPERATOR 5 > (semver_bound, semver), FUNCTION 1 semver_cmp(semver_bound, semver),
  OPERATOR 1 < (semver_bound, semver_bound), OPERATOR 2 <= (semver_bound, semver_bound), OPERATOR 3 = (semver_bound, semver_bound),
  OPERATOR 4 >= (semver_bound, semver_bound), OPERATOR 5 > (semver_bound, semver_bound), FUNCTION 1 semver_cmp(semver_bound, semver_bound);
CREATE OPERATOR CLASS semver_precedence_ops FOR TYPE semver USING hash AS
  OPERATOR 1 #=, FUNCTION 1 semver_precedence_hash(semver), FUNCTION 2 semver_precedence_hash_extended(semver, bigint);
COMMENT ON OPERATOR #< (semver, semver) IS 'below by precedence, which ignores builds';
COMMENT ON OPERATOR #<= (semver, semver) IS 'below or equal by precedence, which ignores builds';
COMMENT ON OPERATOR #= (semver, semver) IS 'equal by precedence, which ignores builds';
COMMENT ON OPERATOR #>= (semver, semver) IS 'above or equal by precedence, which ignores builds';
COMMENT ON OPERATOR #> (semver, semver) IS 'above by precedence, which ignores builds';
COMMENT ON OPERATOR #<> (semver, semver) IS 'not equal by precedence, which ignores builds';
COMMENT ON OPERATOR CLASS semver_precedence_ops USING btree IS 'the order by precedence, which ignores builds';
COMMENT ON OPERATOR CLASS semver_precedence_ops USING hash IS 'equality by precedence, which ignores builds';

CREATE FUNCTION semver_larger(semver, semver) RETURNS semver AS 'MODULE_PATHNAME', 'deno_semver_larger'
  LANGUAGE C IMMUTABLE STRICT PARALLEL SAFE;
CREATE FUNCTION semver_smaller(semver, semver) RETURNS semver AS 'MODULE_PATHNAME', 'deno_semver_smaller'
  LANGUAGE C IMMUTABLE STRICT PARALLEL SAFE;
CREATE AGGREGATE max(semver) (SFUNC = semver_larger, STYPE = semver, COMBINEFUNC = semver_larger, SORTOP = >, PARALLEL = SAFE);
CREATE AGGREGATE min(semver) (SFUNC = semver_smaller, STYPE = semver, COMBINEFUNC = semver_smaller, SORTOP = <, PARALLEL = SAFE);
COMMENT ON AGGREGATE max(semver) IS 'the highest version';
COMMENT ON AGGREGATE min(semver) IS 'the lowest version';

-- ---- the order of ranges

CREATE FUNCTION semver_range_lt(semver_range, semver_range) RETURNS boolean AS 'MODULE_PATHNAME', 'deno_semver_range_lt'
  LANGUAGE C IMMUTABLE STRICT PARALLEL SAFE COST 10;
CREATE FUNCTION semver_range_le(semver_range, semver_range) RETURNS boolean AS 'MODULE_PATHNAME', 'deno_semver_range_le'
  LANGUAGE C IMMUTABLE STRICT PARALLEL SAFE COST 10;
CREATE FUNCTION semver_range_eq(semver_range, semver_range) RETURNS boolean AS 'MODULE_PATHNAME', 'deno_semver_range_eq'
  LANGUAGE C IMMUTABLE STRICT PARALLEL SAFE COST 10;
CREATE FUNCTION semver_range_ne(semver_range, semver_range) RETURNS boolean AS 'MODULE_PATHNAME', 'deno_semver_range_ne'
  LANGUAGE C IMMUTABLE STRICT PARALLEL SAFE COST 10;
CREATE FUNCTION semver_range_ge(semver_range, semver_range) RETURNS boolean AS 'MODULE_PATHNAME', 'deno_semver_range_ge'
  LANGUAGE C IMMUTABLE STRICT PARALLEL SAFE COST 10;
CREATE FUNCTION semver_range_gt(semver_range, semver_range) RETURNS boolean AS 'MODULE_PATHNAME', 'deno_semver_range_gt'
  LANGUAGE C IMMUTABLE STRICT PARALLEL SAFE COST 10;
CREATE FUNCTION semver_range_cmp(semver_range, semver_range) RETURNS integer AS 'MODULE_PATHNAME', 'deno_semver_range_cmp'
  LANGUAGE C IMMUTABLE STRICT PARALLEL SAFE COST 10;
CREATE FUNCTION semver_range_hash(semver_range) RETURNS integer AS 'MODULE_PATHNAME', 'deno_semver_range_hash'
  LANGUAGE C IMMUTABLE STRICT PARALLEL SAFE;
CREATE FUNCTION semver_range_hash_extended(semver_range, bigint) RETURNS bigint AS 'MODULE_PATHNAME', 'deno_semver_range_hash_extended'
  LANGUAGE C IMMUTABLE STRICT PARALLEL SAFE;
CREATE OPERATOR < (LEFTARG = semver_range, RIGHTARG = semver_range, FUNCTION = semver_range_lt, COMMUTATOR = >, NEGATOR = >=, RESTRICT = scalarltsel, JOIN = scalarltjoinsel);
CREATE OPERATOR <= (LEFTARG = semver_range, RIGHTARG = semver_range, FUNCTION = semver_range_le, COMMUTATOR = >=, NEGATOR = >, RESTRICT = scalarlesel, JOIN = scalarlejoinsel);
CREATE OPERATOR = (LEFTARG = semver_range, RIGHTARG = semver_range, FUNCTION = semver_range_eq, COMMUTATOR = =, NEGATOR = <>, RESTRICT = eqsel, JOIN = eqjoinsel, HASHES, MERGES);
CREATE OPERATOR <> (LEFTARG = semver_range, RIGHTARG = semver_range, FUNCTION = semver_range_ne, COMMUTATOR = <>, NEGATOR = =, RESTRICT = neqsel, JOIN = neqjoinsel);
CREATE OPERATOR >= (LEFTARG = semver_range, RIGHTARG = semver_range, FUNCTION = semver_range_ge, COMMUTATOR = <=, NEGATOR = <, RESTRICT = scalargesel, JOIN = scalargejoinsel);
CREATE OPERATOR > (LEFTARG = semver_range, RIGHTARG = semver_range, FUNCTION = semver_range_gt, COMMUTATOR = <, NEGATOR = <=, RESTRICT = scalargtsel, JOIN = scalargtjoinsel);
COMMENT ON OPERATOR = (semver_range, semver_range) IS 'both have the same alternatives in the same order';
CREATE FUNCTION semver_range_sortsupport(internal) RETURNS void AS 'MODULE_PATHNAME', 'deno_semver_range_sortsupport'
  LANGUAGE C IMMUTABLE STRICT PARALLEL SAFE;
-- Equal ranges may be different strings, so an index keeps each.
CREATE OPERATOR CLASS semver_range_ops DEFAULT FOR TYPE semver_range USING btree AS
  OPERATOR 1 <, OPERATOR 2 <=, OPERATOR 3 =, OPERATOR 4 >=, OPERATOR 5 >,
  FUNCTION 1 semver_range_cmp(semver_range, semver_range), FUNCTION 2 semver_range_sortsupport(internal);
CREATE OPERATOR CLASS semver_range_ops DEFAULT FOR TYPE semver_range USING hash AS
  OPERATOR 1 =, FUNCTION 1 semver_range_hash(semver_range), FUNCTION 2 semver_range_hash_extended(semver_range, bigint);

-- ---- matching

CREATE FUNCTION semver_support(internal) RETURNS internal AS 'MODULE_PATHNAME', 'deno_semver_support'
  LANGUAGE C IMMUTABLE STRICT PARALLEL SAFE;
CREATE FUNCTION semver_is_within_support(internal) RETURNS internal AS 'MODULE_PATHNAME', 'deno_semver_is_within_support'
  LANGUAGE C IMMUTABLE STRICT PARALLEL SAFE;
CREATE FUNCTION semver_within(semver, semver_range) RETURNS boolean AS 'MODULE_PATHNAME', 'deno_semver_within'
  LANGUAGE C IMMUTABLE STRICT PARALLEL SAFE SUPPORT semver_support;
CREATE FUNCTION semver_contains(semver_range, semver) RETURNS boolean AS 'MODULE_PATHNAME', 'deno_semver_contains'
  LANGUAGE C IMMUTABLE STRICT PARALLEL SAFE SUPPORT semver_support;
CREATE FUNCTION semver_is_within(semver, semver_range) RETURNS boolean AS 'MODULE_PATHNAME', 'deno_semver_within'
  LANGUAGE C IMMUTABLE STRICT PARALLEL SAFE SUPPORT semver_is_within_support;
-- How many rows the planner expects of both operators.
CREATE FUNCTION semver_within_sel(internal, oid, internal, integer) RETURNS double precision AS 'MODULE_PATHNAME', 'deno_semver_within_sel'
  LANGUAGE C STABLE STRICT PARALLEL SAFE;
CREATE OPERATOR <@ (
  LEFTARG = semver, RIGHTARG = semver_range, FUNCTION = semver_within, COMMUTATOR = @>, RESTRICT = semver_within_sel, JOIN = matchingjoinsel
);
CREATE OPERATOR @> (
  LEFTARG = semver_range, RIGHTARG = semver, FUNCTION = semver_contains, COMMUTATOR = <@, RESTRICT = semver_within_sel, JOIN = matchingjoinsel
);
COMMENT ON OPERATOR <@ (semver, semver_range) IS 'the version matches the range';
COMMENT ON OPERATOR @> (semver_range, semver) IS 'the range matches the version';

CREATE FUNCTION semver_matches(range text, version semver, pre_releases boolean DEFAULT false, grammar text DEFAULT 'npm') RETURNS boolean AS 'MODULE_PATHNAME', 'deno_semver_matches'
  LANGUAGE C IMMUTABLE STRICT PARALLEL SAFE COST 10;
CREATE FUNCTION semver_matches(range text, version text, pre_releases boolean DEFAULT false, grammar text DEFAULT 'npm') RETURNS boolean AS 'MODULE_PATHNAME', 'deno_semver_matches_text'
  LANGUAGE C IMMUTABLE STRICT PARALLEL SAFE COST 10;
COMMENT ON FUNCTION semver_matches(text, semver, boolean, text) IS 'whether a version matches a range; uses no index';
COMMENT ON FUNCTION semver_matches(text, text, boolean, text) IS 'whether a version given as a string matches a range; uses no index';

-- ---- what \do, \df and \dAc show of the rest

COMMENT ON FUNCTION semver_in(cstring) IS 'I/O';
COMMENT ON FUNCTION semver_out(semver) IS 'I/O';
COMMENT ON FUNCTION semver_recv(internal) IS 'I/O';
COMMENT ON FUNCTION semver_send(semver) IS 'I/O';
COMMENT ON FUNCTION semver_range_in(cstring) IS 'I/O';
COMMENT ON FUNCTION semver_range_out(semver_range) IS 'I/O';
COMMENT ON FUNCTION semver_range_recv(internal) IS 'I/O';
COMMENT ON FUNCTION semver_range_send(semver_range) IS 'I/O';
COMMENT ON FUNCTION semver_bound_in(cstring) IS 'I/O';
COMMENT ON FUNCTION semver_bound_out(semver_bound) IS 'I/O';
COMMENT ON FUNCTION semver_bound_recv(internal) IS 'I/O';
COMMENT ON FUNCTION semver_bound_send(semver_bound) IS 'I/O';
COMMENT ON FUNCTION semver_range_low(semver_range) IS 'the lowest bound of what the range matches';
COMMENT ON FUNCTION semver_range_high(semver_range) IS 'the highest bound of what the range matches';
COMMENT ON FUNCTION semver_lt(semver, semver) IS 'implementation of < operator';
COMMENT ON OPERATOR < (semver, semver) IS 'less than';
COMMENT ON FUNCTION semver_le(semver, semver) IS 'implementation of <= operator';
COMMENT ON OPERATOR <= (semver, semver) IS 'less than or equal';
COMMENT ON FUNCTION semver_eq(semver, semver) IS 'implementation of = operator';
COMMENT ON OPERATOR = (semver, semver) IS 'equal';
COMMENT ON FUNCTION semver_ne(semver, semver) IS 'implementation of <> operator';
COMMENT ON OPERATOR <> (semver, semver) IS 'not equal';
COMMENT ON FUNCTION semver_ge(semver, semver) IS 'implementation of >= operator';
COMMENT ON OPERATOR >= (semver, semver) IS 'greater than or equal';
COMMENT ON FUNCTION semver_gt(semver, semver) IS 'implementation of > operator';
COMMENT ON OPERATOR > (semver, semver) IS 'greater than';
COMMENT ON FUNCTION semver_cmp(semver, semver) IS 'less-equal-greater';
COMMENT ON FUNCTION semver_lt(semver, semver_bound) IS 'implementation of < operator';
COMMENT ON OPERATOR < (semver, semver_bound) IS 'less than';
COMMENT ON FUNCTION semver_le(semver, semver_bound) IS 'implementation of <= operator';
COMMENT ON OPERATOR <= (semver, semver_bound) IS 'less than or equal';
COMMENT ON FUNCTION semver_eq(semver, semver_bound) IS 'implementation of = operator';
COMMENT ON OPERATOR = (semver, semver_bound) IS 'equal';
COMMENT ON FUNCTION semver_ne(semver, semver_bound) IS 'implementation of <> operator';
COMMENT ON OPERATOR <> (semver, semver_bound) IS 'not equal';
COMMENT ON FUNCTION semver_ge(semver, semver_bound) IS 'implementation of >= operator';
COMMENT ON OPERATOR >= (semver, semver_bound) IS 'greater than or equal';
COMMENT ON FUNCTION semver_gt(semver, semver_bound) IS 'implementation of > operator';
COMMENT ON OPERATOR > (semver, semver_bound) IS 'greater than';
COMMENT ON FUNCTION semver_cmp(semver, semver_bound) IS 'less-equal-greater';
COMMENT ON FUNCTION semver_lt(semver_bound, semver) IS 'implementation of < operator';
COMMENT ON OPERATOR < (semver_bound, semver) IS 'less than';
COMMENT ON FUNCTION semver_le(semver_bound, semver) IS 'implementation of <= operator';
COMMENT ON OPERATOR <= (semver_bound, semver) IS 'less than or equal';
COMMENT ON FUNCTION semver_eq(semver_bound, semver) IS 'implementation of = operator';
COMMENT ON OPERATOR = (semver_bound, semver) IS 'equal';
COMMENT ON FUNCTION semver_ne(semver_bound, semver) IS 'implementation of <> operator';
COMMENT ON OPERATOR <> (semver_bound, semver) IS 'not equal';
COMMENT ON FUNCTION semver_ge(semver_bound, semver) IS 'implementation of >= operator';
COMMENT ON OPERATOR >= (semver_bound, semver) IS 'greater than or equal';
COMMENT ON FUNCTION semver_gt(semver_bound, semver) IS 'implementation of > operator';
COMMENT ON OPERATOR > (semver_bound, semver) IS 'greater than';
COMMENT ON FUNCTION semver_cmp(semver_bound, semver) IS 'less-equal-greater';
COMMENT ON FUNCTION semver_lt(semver_bound, semver_bound) IS 'implementation of < operator';
COMMENT ON OPERATOR < (semver_bound, semver_bound) IS 'less than';
COMMENT ON FUNCTION semver_le(semver_bound, semver_bound) IS 'implementation of <= operator';
COMMENT ON OPERATOR <= (semver_bound, semver_bound) IS 'less than or equal';
COMMENT ON FUNCTION semver_eq(semver_bound, semver_bound) IS 'implementation of = operator';
COMMENT ON OPERATOR = (semver_bound, semver_bound) IS 'equal';
COMMENT ON FUNCTION semver_ne(semver_bound, semver_bound) IS 'implementation of <> operator';
COMMENT ON OPERATOR <> (semver_bound, semver_bound) IS 'not equal';
COMMENT ON FUNCTION semver_ge(semver_bound, semver_bound) IS 'implementation of >= operator';
COMMENT ON OPERATOR >= (semver_bound, semver_bound) IS 'greater than or equal';
COMMENT ON FUNCTION semver_gt(semver_bound, semver_bound) IS 'implementation of > operator';
COMMENT ON OPERATOR > (semver_bound, semver_bound) IS 'greater than';
COMMENT ON FUNCTION semver_cmp(semver_bound, semver_bound) IS 'less-equal-greater';
COMMENT ON FUNCTION semver_range_lt(semver_range, semver_range) IS 'implementation of < operator';
COMMENT ON OPERATOR < (semver_range, semver_range) IS 'less than';
COMMENT ON FUNCTION semver_precedence_lt(semver, semver) IS 'implementation of #< operator';
COMMENT ON FUNCTION semver_range_le(semver_range, semver_range) IS 'implementation of <= operator';
COMMENT ON OPERATOR <= (semver_range, semver_range) IS 'less than or equal';
COMMENT ON FUNCTION semver_precedence_le(semver, semver) IS 'implementation of #<= operator';
COMMENT ON FUNCTION semver_range_eq(semver_range, semver_range) IS 'implementation of = operator';
COMMENT ON FUNCTION semver_precedence_eq(semver, semver) IS 'implementation of #= operator';
COMMENT ON FUNCTION semver_range_ne(semver_range, semver_range) IS 'implementation of <> operator';
COMMENT ON OPERATOR <> (semver_range, semver_range) IS 'not equal';
COMMENT ON FUNCTION semver_precedence_ne(semver, semver) IS 'implementation of #<> operator';
COMMENT ON FUNCTION semver_range_ge(semver_range, semver_range) IS 'implementation of >= operator';
COMMENT ON OPERATOR >= (semver_range, semver_range) IS 'greater than or equal';
COMMENT ON FUNCTION semver_precedence_ge(semver, semver) IS 'implementation of #>= operator';
COMMENT ON FUNCTION semver_range_gt(semver_range, semver_range) IS 'implementation of > operator';
COMMENT ON OPERATOR > (semver_range, semver_range) IS 'greater than';
COMMENT ON FUNCTION semver_precedence_gt(semver, semver) IS 'implementation of #> operator';
COMMENT ON FUNCTION semver_range_cmp(semver_range, semver_range) IS 'less-equal-greater';
COMMENT ON FUNCTION semver_sortsupport(internal) IS 'sort support';
COMMENT ON FUNCTION semver_hash(semver) IS 'hash';
COMMENT ON FUNCTION semver_hash_extended(semver, bigint) IS 'hash';
COMMENT ON FUNCTION semver_precedence_sortsupport(internal) IS 'sort support';
COMMENT ON FUNCTION semver_precedence_hash(semver) IS 'hash';
COMMENT ON FUNCTION semver_precedence_hash_extended(semver, bigint) IS 'hash';
COMMENT ON FUNCTION semver_range_sortsupport(internal) IS 'sort support';
COMMENT ON FUNCTION semver_range_hash(semver_range) IS 'hash';
COMMENT ON FUNCTION semver_range_hash_extended(semver_range, bigint) IS 'hash';
COMMENT ON FUNCTION semver_larger(semver, semver) IS 'larger of two';
COMMENT ON FUNCTION semver_smaller(semver, semver) IS 'smaller of two';
COMMENT ON FUNCTION semver_within(semver, semver_range) IS 'implementation of <@ operator';
COMMENT ON FUNCTION semver_contains(semver_range, semver) IS 'implementation of @> operator';
COMMENT ON FUNCTION semver_is_within(semver, semver_range) IS '<@ beside the intervals of a range, in a plan';
COMMENT ON FUNCTION semver_support(internal) IS 'planner support for <@ and @>';
COMMENT ON FUNCTION semver_is_within_support(internal) IS 'planner support for semver_is_within';
COMMENT ON FUNCTION semver_bound_ltsel(internal, oid, internal, integer) IS 'restriction selectivity of < and <= with a bound';
COMMENT ON FUNCTION semver_bound_gtsel(internal, oid, internal, integer) IS 'restriction selectivity of > and >= with a bound';
COMMENT ON FUNCTION semver_within_sel(internal, oid, internal, integer) IS 'restriction selectivity of <@ and @>';
COMMENT ON OPERATOR CLASS semver_ops USING btree IS 'the order by precedence and then by the build';
COMMENT ON OPERATOR CLASS semver_ops USING hash IS 'equality of versions, builds too';
COMMENT ON OPERATOR CLASS semver_bound_ops USING btree IS 'the order of bounds by precedence';
COMMENT ON OPERATOR CLASS semver_range_ops USING btree IS 'the order of ranges';
COMMENT ON OPERATOR CLASS semver_range_ops USING hash IS 'equality of ranges';
