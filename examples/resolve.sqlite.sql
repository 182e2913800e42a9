-- Which version does each dependency get? Run sqlite3 :memory: '.load mod_deno_semver' '.read resolve.sqlite.sql'
CREATE TABLE versions (package TEXT, version TEXT);
INSERT INTO versions VALUES ('router', '2.0.4'), ('router', '2.1.0'), ('router', '2.3.1'), ('router', '3.0.0'),
    ('log', '1.2.0'), ('log', '1.3.0-beta.2');
CREATE TABLE dependencies (id INTEGER PRIMARY KEY, package TEXT, range TEXT);
INSERT INTO dependencies (package, range) VALUES ('router', '^2.1'), ('log', '^1.2 || 2'), ('router', '<2.0.4');

SELECT d.package || ' ' || d.range || ': ' || coalesce(
    (SELECT v.version FROM versions v WHERE v.package = d.package AND semver_matches(d.range, v.version)
     ORDER BY v.version COLLATE SEMVER DESC LIMIT 1), 'no version matches')
FROM dependencies d ORDER BY d.id;
