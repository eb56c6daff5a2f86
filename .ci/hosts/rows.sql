-- Checks the lines of table.py, as bytes, as text and as json, and prints what has another verdict than is due; then how many lines
-- there were.
--
--     table.py rows | psql -f rows.sql
SET client_min_messages = warning;
CREATE TEMP TABLE given (id integer, hex text, max_bytes bigint, rule text, place bigint, warnings text);
\copy given FROM pstdin

-- A text of the server is UTF-8 and has no byte 0; a json is what its own parser takes of such texts, and a jsonb what it can keep of
-- these.
CREATE FUNCTION pg_temp.as_text(body bytea) RETURNS text LANGUAGE plpgsql AS $$
BEGIN RETURN convert_from(body, 'UTF8'); EXCEPTION WHEN data_exception OR character_not_in_repertoire THEN RETURN NULL; END $$;
CREATE FUNCTION pg_temp.as_json(body text) RETURNS json LANGUAGE plpgsql AS $$
BEGIN RETURN body::json; EXCEPTION WHEN data_exception OR statement_too_complex THEN RETURN NULL; END $$;
CREATE FUNCTION pg_temp.as_jsonb(body json) RETURNS jsonb LANGUAGE plpgsql AS $$
BEGIN RETURN body::jsonb; EXCEPTION WHEN data_exception OR statement_too_complex THEN RETURN NULL; END $$;
CREATE FUNCTION pg_temp.noted(warnings jsonb) RETURNS text LANGUAGE sql AS $$
SELECT coalesce(string_agg(concat_ws(' ', w ->> 'rule', w ->> 'count', w ->> 'place'), ','), '') FROM jsonb_array_elements(warnings) AS w $$;

CREATE TEMP TABLE texts AS SELECT id, max_bytes, rule, place, warnings, decode(hex, 'hex') AS body, pg_temp.as_text(decode(hex, 'hex')) AS chars FROM given;
ALTER TABLE texts ADD tree json, ADD kept jsonb;
UPDATE texts SET tree = pg_temp.as_json(chars);
UPDATE texts SET kept = pg_temp.as_jsonb(tree);

CREATE TEMP VIEW said AS
SELECT 'bytea' AS type, id, geojson_report(body, max_bytes => max_bytes) AS report, is_geojson(body, max_bytes => max_bytes) AS yes FROM texts
UNION ALL SELECT 'text', id, geojson_report(chars, max_bytes => max_bytes), is_geojson(chars, max_bytes => max_bytes) FROM texts WHERE chars IS NOT NULL
UNION ALL SELECT 'json', id, geojson_report(tree, max_bytes => max_bytes), is_geojson(tree, max_bytes => max_bytes) FROM texts WHERE tree IS NOT NULL;

SELECT type, id, said.report, yes, rule, place, warnings FROM said JOIN texts USING (id)
WHERE yes <> (rule IS NULL) OR (said.report).valid <> yes OR (said.report).path IS NOT NULL
    OR ((said.report).rule, (said.report).place, pg_temp.noted((said.report).warnings)) IS DISTINCT FROM (rule, place, coalesce(warnings, ''))
    OR ((said.report).message IS NULL) <> yes OR ((said.report).warnings IS NULL) = yes;
SELECT 'jsonb', id FROM texts WHERE is_geojson(kept) IS DISTINCT FROM is_geojson(kept::text);
SELECT count(*) FROM texts;
