-- Long values, however the server stores them. Each table stores the texts in another way.
CREATE TABLE apart (id integer, body text);
ALTER TABLE apart ALTER body SET STORAGE EXTERNAL;
CREATE TABLE packed (id integer, body text);
CREATE TABLE bytes (id integer, body bytea);
ALTER TABLE bytes ALTER body SET STORAGE EXTERNAL;

CREATE VIEW texts AS
SELECT 0 AS id, '{"type":"Point","coordinates":[1,2]}' AS body
UNION ALL SELECT 1, '{"type":"MultiPoint","coordinates":[' || repeat('[17.1,48.1],', 100000) || '[1,2]]}'
UNION ALL SELECT 2, '{"type":"MultiPoint","coordinates":[' || repeat('[17.1,48.1],', 100000) || '[1]]}'
UNION ALL SELECT 3, '{"type":"Point","coordinates":[1,2]}' || repeat(' ', 1000000)
UNION ALL SELECT 4, '{"type":"Point","coordinates":[1,2],"name":"' || repeat('žltá ', 200000) || '"}'
UNION ALL SELECT 5, '{"type":"Point","coordinates":[1,2],"name":"' || repeat('žltá ', 200000)
UNION ALL SELECT 6, '[' || repeat('7,', 500000) || '7]'
UNION ALL SELECT 7, repeat(' ', 128 * 1996) || '{"type":"Point","coordinates":[1]}'
UNION ALL SELECT 8, repeat(' ', 128 * 1996 - 1) || '{"type":"Point","coordinates":[1,2]}'
UNION ALL SELECT 9, repeat(' ', 128 * 1996)
UNION ALL SELECT 10, '{"type":"Point","coordinates":[1,2]}' || repeat(' ', 100000)
UNION ALL SELECT 11, '{"type":"Point","coordinates":[1,2]' || repeat(' ', 100000);

INSERT INTO apart SELECT * FROM texts;
INSERT INTO packed SELECT * FROM texts;
INSERT INTO bytes SELECT id, convert_to(body, 'UTF8') FROM texts;

SELECT id, valid, rule, place, message, warnings, is_geojson(body) AS yes FROM texts, geojson_report(body) ORDER BY id;
-- No table says anything else.
WITH stored AS (
    SELECT id, geojson_report(body) AS report, is_geojson(body) AS yes FROM apart
    UNION ALL SELECT id, geojson_report(body), is_geojson(body) FROM packed
    UNION ALL SELECT id, geojson_report(body), is_geojson(body) FROM bytes
)
SELECT count(*), count(*) FILTER (WHERE report = geojson_report(body) AND yes = is_geojson(body)) AS "as above" FROM stored JOIN texts USING (id);
-- The features of long texts are the same in each, however they are cut: the last one, which is broken, ends after all others.
CREATE VIEW collections AS
SELECT 0 AS id, '{"features":[' || repeat('{"type":"Feature","geometry":null,"properties":{"name":"žltá"}},', 20000) || '{"type":"Feature","geometry":null}]}' AS body
UNION ALL SELECT 1, '{"x":"' || repeat('ž', 128 * 998 - 12) || '","features":[{},7, {}]}'
UNION ALL SELECT 2, '{"features":[{}' || repeat(' ', 1000000) || ',[]' || repeat(' ', 1000000);
TRUNCATE apart, packed, bytes;
INSERT INTO apart SELECT * FROM collections;
INSERT INTO packed SELECT * FROM collections;
INSERT INTO bytes SELECT id, convert_to(body, 'UTF8') FROM collections;
SELECT id, count(*), count(*) FILTER (WHERE valid) AS valid, max(start_place) AS start_place, max(end_place) AS end_place, max(place) AS place FROM collections, geojson_features(body) GROUP BY id ORDER BY id;
WITH stored AS (
    SELECT id, it FROM apart, geojson_features(body) AS it
    UNION ALL SELECT id, it FROM packed, geojson_features(body) AS it
    UNION ALL SELECT id, it FROM bytes, geojson_features(body) AS it
), counted AS (SELECT id, it, count(*) FROM stored GROUP BY id, it)
SELECT count(*), count(*) FILTER (WHERE count = 3) AS "as above" FROM counted JOIN (SELECT id, it FROM collections, geojson_features(body) AS it) AS given USING (id, it);
TRUNCATE apart, packed;
INSERT INTO apart SELECT * FROM texts;
INSERT INTO packed SELECT * FROM texts;

-- They store them out of line as they are, out of line and compressed, and compressed in the row.
SELECT id, pg_column_size(apart.body) > 100000 AS "as it is", pg_column_size(packed.body) < 40000 AS compressed, pg_column_size(packed.body) < 2000 AS "in the row"
FROM apart JOIN packed USING (id) WHERE id IN (1, 10) ORDER BY id;

-- One linter is kept for the backend.
SELECT count(*) FROM pg_backend_memory_contexts WHERE name = 'geolint' AND parent = 'TopMemoryContext';

-- The same values as json, and what they are as jsonb.
SELECT id, is_geojson(body::json), is_geojson(body::jsonb) FROM texts WHERE id IN (0, 1, 2, 4, 6) ORDER BY id;
