-- Which version does each dependency get? Run psql --tuples-only --no-align --quiet -f resolve.postgres.sql, in a database with the extension
BEGIN;
CREATE TABLE versions (package text, version semver, PRIMARY KEY (package, version));
INSERT INTO versions VALUES ('router', '2.0.4'), ('router', '2.1.0'), ('router', '2.3.1'), ('router', '3.0.0'),
    ('log', '1.2.0'), ('log', '1.3.0-beta.2');
CREATE TABLE dependencies (id int GENERATED ALWAYS AS IDENTITY, package text, range semver_range);
INSERT INTO dependencies (package, range) VALUES ('router', '^2.1'), ('log', '^1.2 || 2'), ('router', '<2.0.4');

SELECT d.package || ' ' || d.range::text || ': ' || coalesce(
    (SELECT v.version FROM versions v WHERE v.package = d.package AND v.version <@ d.range
     ORDER BY v.version DESC LIMIT 1)::text, 'no version matches')
FROM dependencies d ORDER BY d.id;
ROLLBACK;
