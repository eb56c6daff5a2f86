CREATE EXTENSION geolint;
SELECT geolint_version() = extversion AS "the library's version is the extension's" FROM pg_extension WHERE extname = 'geolint';
SELECT version = geolint_version() AS "and so says the build", (commit IS NULL) = (kit IS NULL) AS "commit and kit are said together" FROM geolint_build();

-- A yes or a no, of each type. A literal without a type is a text.
SELECT is_geojson('{"type":"Point","coordinates":[17.1,48.1]}');
SELECT is_geojson('{"type":"Point","coordinates":[17.1]}');
SELECT is_geojson('{"type":"Point","coordinates":[17.1,48.1]}'::json);
SELECT is_geojson('{"type":"Point"}'::json);
SELECT is_geojson('{"type":"Point","coordinates":[17.1,48.1]}'::bytea);
SELECT is_geojson('\x7b22e2822822'::bytea);
SELECT is_geojson('{"type":"Point","coordinates":[17.1,48.1]}'::jsonb);
SELECT is_geojson('[1,2]'::jsonb);
SELECT is_geojson('');
SELECT is_geojson(NULL::text) IS NULL AS "of no text nothing is said", geojson_report(NULL::text) IS NULL AS "nor here";

-- A report: the rule or the cause with its place, and the warnings of a valid text.
SELECT * FROM geojson_report('{"type":"Polygon","coordinates":[[[0,0],[1,0],[1,1],[0,0,0]]]}');
SELECT * FROM geojson_report('{"type":"Feature","geometry":null}');
SELECT * FROM geojson_report('[1,2');
SELECT * FROM geojson_report('{"type":"Point","coordinates":[17.1,48.1]}');
SELECT valid, jsonb_pretty(warnings) FROM geojson_report('{"type":"LineString","coordinates":[[1.12345678,2],[200,2],[201,2]]}');
SELECT * FROM geojson_report('01'::bytea);
SELECT rule, place, message FROM geojson_report('{"type":"Point", "coordinates":[1]}'::json);
SELECT (geojson_report('7')).message;

-- The features of a text, with what is found in each: a row for each element of the first array `features`.
SELECT * FROM geojson_features('{"type":"FeatureCollection","features":[{"type":"Feature","id":7,"geometry":null,"properties":{}},{"type":"Feature","geometry":null},null]}');
SELECT index, valid, warnings FROM geojson_features('{"features":[{"type":"Feature","geometry":{"type":"Point","coordinates":[200,2]},"properties":{}}]}'::json);
SELECT index, rule, place FROM geojson_features('{"features":[{},{},{'::bytea);
SELECT count(*) FROM geojson_features('{"type":"Point","coordinates":[1,2]}');
SELECT count(*) FROM geojson_features(NULL::text);
SELECT index FROM geojson_features('{"features":[{},{},{}]}', max_bytes => 17);
SELECT geojson_features('[]', max_depth => 0);

-- Places are byte offsets, and a character may have several bytes.
SELECT place FROM geojson_report('{"name":"Žilina","type":"Nope"}');

-- Limits, by name too.
SELECT is_geojson('{"type":"Point","coordinates":[1,2]}', 2), is_geojson('{"type":"Point","coordinates":[1,2]}', 1);
SELECT rule, place FROM geojson_report('{"type":"Point","coordinates":[1,2]}', max_bytes => 10);
SELECT rule, place FROM geojson_report('{"type":"Point","coordinates":[1,2]}', max_depth => 1);
SELECT is_geojson('[]', max_depth => 0);
SELECT is_geojson('[]', max_depth => 257);
SELECT is_geojson('[]', max_depth => -1);
SELECT geojson_report('[]', max_bytes => 0);
SELECT geojson_report('[]', max_bytes => 1152921504606846977);
SELECT is_geojson('[]', NULL) IS NULL AS "of no limit nothing is said";
SELECT is_geojson('{"type":"Point","coordinates":[1,2]}') AS "after an error the next text is checked from its start";

-- A valid text with a warning, which some kinds fail.
SELECT deny, is_geojson('{"type":"Point","coordinates":[200,2]}', deny => deny) FROM (VALUES ('{}'::text[]), ('{W5}'), ('{W4,W5}'), ('{W4}')) AS of (deny);
SELECT is_geojson('{"type":"Point","coordinates":[200,2]}'::jsonb, deny => '{W5}'), is_geojson('[]', deny => '{W5}');
SELECT is_geojson('{"type":"Point","coordinates":[200,2]}', deny => '{G5}');
SELECT is_geojson('{"type":"Point","coordinates":[200,2]}', deny => ARRAY[NULL]);

-- A table that holds nothing else.
CREATE TABLE places (id integer PRIMARY KEY, body text NOT NULL CHECK (is_geojson(body)));
INSERT INTO places VALUES (1, '{"type":"Point","coordinates":[17.1,48.1]}');
INSERT INTO places VALUES (2, '{"type":"Point","coordinates":[17.1,"48.1"]}');
UPDATE places SET body = body || ',';
SELECT id FROM places;
SELECT pg_get_constraintdef(oid) FROM pg_constraint WHERE conname = 'places_body_check';

-- A table of what came, and what is wrong with it.
CREATE TABLE uploads (id integer, body text);
INSERT INTO uploads VALUES
    (1, '{"type":"Point","coordinates":[1,2]}'),
    (2, '{"type":"Point","coordinates":[1]}'),
    (3, '{"type":"Point","coordinates":[1,2]'),
    (4, NULL),
    (5, '{"type":"Point","coordinates":[]}');
SELECT id, rule, place, message FROM uploads, geojson_report(body) WHERE NOT is_geojson(body) ORDER BY id;
SELECT id, rule, warnings FROM uploads LEFT JOIN LATERAL geojson_report(body) ON true ORDER BY id;
ALTER TABLE uploads ADD is_right boolean GENERATED ALWAYS AS (is_geojson(body)) STORED;
SELECT id, is_right FROM uploads ORDER BY id;
CREATE INDEX ON uploads (id) WHERE NOT is_geojson(body);
CREATE INDEX ON uploads (((geojson_report(body)).rule));

-- Several workers, each with a linter of its own.
CREATE TABLE many (body text);
INSERT INTO many SELECT format('{"type":"Point","coordinates":[%s]}', CASE WHEN n % 10 = 0 THEN '7' ELSE '7,' || n % 90 END) FROM generate_series(1, 20000) AS n;
ANALYZE many;
SET parallel_setup_cost = 0;
SET parallel_tuple_cost = 0;
SET min_parallel_table_scan_size = 0;
EXPLAIN (COSTS OFF) SELECT count(*) FROM many WHERE is_geojson(body);
SELECT count(*) FROM many WHERE is_geojson(body);
SELECT rule, place, count(*) FROM many, geojson_report(body) WHERE NOT valid GROUP BY rule, place;
RESET ALL;

-- A text that is known when a query is planned is checked once.
EXPLAIN (COSTS OFF, VERBOSE) SELECT is_geojson('[1,2]');
SELECT proname, provolatile, proparallel, proisstrict, count(*) FROM pg_proc WHERE proname IN ('is_geojson', 'geojson_report', 'geojson_features') GROUP BY 1, 2, 3, 4 ORDER BY 1;
