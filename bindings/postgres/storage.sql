-- What is stored: partitions, COPY in both formats, checks of indexes. The tables stay, for a dump.
CREATE EXTENSION deno_semver;
CREATE EXTENSION amcheck;
CREATE DOMAIN release AS semver CHECK (NOT semver_is_pre(VALUE));
CREATE TABLE kept(package text, version semver, accepts semver_range DEFAULT '*', bound semver_bound, PRIMARY KEY (package, version),
    CHECK (version <@ '>=0.0.0-0 || >=5' OR semver_is_pre(version)))
  PARTITION BY LIST (package);
CREATE TABLE kept_a PARTITION OF kept FOR VALUES IN ('a');
CREATE TABLE kept_others PARTITION OF kept DEFAULT;
INSERT INTO kept SELECT CASE n % 3 WHEN 0 THEN 'a' ELSE 'b' || n % 3 END,
    (n % 7 || '.' || n % 11 || '.' || n || CASE n % 5 WHEN 0 THEN '-rc.' || n % 13 WHEN 1 THEN '+b.' || n ELSE '' END)::semver,
    ('^' || n % 7 || '.' || n % 11 || ' || >=' || n % 5 || '.0.0-rc.1 <9')::semver_range, semver_range_high(('~' || n % 7)::semver_range)
  FROM generate_series(1, 2000) n;
INSERT INTO kept VALUES ('a', '1.0.0+a', '*'), ('a', '1.0.0+b', '*');
CREATE INDEX by_precedence ON kept_a(version semver_precedence_ops);
CREATE INDEX by_key ON kept(semver_is_pre(version), semver_key(version));
CREATE INDEX by_bound ON kept(bound);
CREATE INDEX by_hash ON kept USING hash (version);
CREATE INDEX by_precedence_hash ON kept USING hash (version semver_precedence_ops);
CREATE INDEX by_range ON kept(accepts, package);
CREATE INDEX by_range_hash ON kept USING hash (accepts);
CREATE INDEX of_two ON kept(package) WHERE version <@ '1 || 3';
CREATE VIEW highest AS SELECT package, max(version) AS version FROM kept WHERE version <@ '1 || 3' GROUP BY package;
CREATE MATERIALIZED VIEW accepted AS SELECT accepts, count(*), min(version)::release AS lowest FROM kept WHERE NOT semver_is_pre(version) GROUP BY accepts;
CREATE TABLE keys(version semver PRIMARY KEY, key semver_sort_key GENERATED ALWAYS AS (semver_key(version)) STORED);
INSERT INTO keys SELECT DISTINCT version FROM kept;
CREATE VIEW checked AS SELECT count(bt_index_check(i.indexrelid, true)) FROM pg_index i JOIN pg_class c ON c.oid = indexrelid JOIN pg_am a ON a.oid = relam
  WHERE indrelid IN ('kept_a'::regclass, 'kept_others'::regclass) AND amname = 'btree';
SELECT * FROM checked;
SELECT tableoid::regclass, count(*), max(version), min(version), count(*) FILTER (WHERE version <@ accepts) AS accepted FROM kept GROUP BY 1 ORDER BY 1;
CREATE TABLE copied(LIKE kept);
\set file :folder/copied
COPY (SELECT * FROM kept) TO :'file' (FORMAT binary);
COPY copied FROM :'file' (FORMAT binary);
SELECT count(*) FROM kept JOIN copied USING (package, version) WHERE kept.accepts::text = copied.accepts::text AND kept.accepts = copied.accepts AND kept.bound IS NOT DISTINCT FROM copied.bound;
TRUNCATE copied;
COPY (SELECT * FROM kept) TO :'file';
COPY copied FROM :'file';
SELECT count(*) FROM kept JOIN copied USING (package, version) WHERE kept.accepts::text = copied.accepts::text AND kept.accepts = copied.accepts AND kept.bound IS NOT DISTINCT FROM copied.bound;
-- bytes in binary: of a later format, no version, or a range that matches nothing
CREATE TABLE sent(version semver);
CREATE TABLE sent_ranges(range semver_range);
CREATE TABLE sent_bounds(bound semver_bound);
\set ON_ERROR_STOP off
COPY (SELECT '\x01'::bytea || '1.2.3') TO :'file' (FORMAT binary);
COPY sent FROM :'file' (FORMAT binary);
COPY (SELECT '\x02'::bytea || '1.2.3') TO :'file' (FORMAT binary);
COPY sent FROM :'file' (FORMAT binary);
COPY sent_ranges FROM :'file' (FORMAT binary);
COPY sent_bounds FROM :'file' (FORMAT binary);
COPY (SELECT '\x01'::bytea || 'A1 A2') TO :'file' (FORMAT binary);
COPY sent_bounds FROM :'file' (FORMAT binary);
COPY (SELECT '\x01'::bytea || '1.2') TO :'file' (FORMAT binary);
COPY sent FROM :'file' (FORMAT binary);
COPY sent_ranges FROM :'file' (FORMAT binary);
COPY (SELECT '\x01'::bytea || '<0') TO :'file' (FORMAT binary);
COPY sent_ranges FROM :'file' (FORMAT binary);
\set ON_ERROR_STOP on
SELECT * FROM sent, sent_ranges;
DELETE FROM sent_ranges WHERE range::text = '<0';
