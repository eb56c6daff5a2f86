-- Asks for the features of the texts of table.py, as bytes, as text and as json, and prints what is found otherwise than is due; then how
-- many texts there were.
--
--     table.py features 1 1000 | psql -f features.sql
SET client_min_messages = warning;
CREATE TEMP TABLE given (id integer, hex text, findings text);
\copy given FROM pstdin

CREATE FUNCTION pg_temp.as_text(body bytea) RETURNS text LANGUAGE plpgsql AS $$
BEGIN RETURN convert_from(body, 'UTF8'); EXCEPTION WHEN data_exception OR character_not_in_repertoire THEN RETURN NULL; END $$;
CREATE FUNCTION pg_temp.as_json(body text) RETURNS json LANGUAGE plpgsql AS $$
BEGIN RETURN body::json; EXCEPTION WHEN data_exception OR statement_too_complex THEN RETURN NULL; END $$;
CREATE FUNCTION pg_temp.noted(warnings jsonb) RETURNS text LANGUAGE sql AS $$
SELECT string_agg(concat_ws(' ', w ->> 'rule', w ->> 'count', w ->> 'place'), ',') FROM jsonb_array_elements(warnings) AS w $$;
CREATE FUNCTION pg_temp.line(it geojson_finding) RETURNS text LANGUAGE sql AS $$
SELECT concat_ws(' ', it.index, it.start_place, coalesce(it.end_place::text, '-'), coalesce(it.id_place::text, '-'), coalesce(it.rule, '-'), coalesce(it.place::text, '-'), coalesce(pg_temp.noted(it.warnings), '-')) $$;

CREATE TEMP TABLE texts AS SELECT id, findings, decode(hex, 'hex') AS body, pg_temp.as_text(decode(hex, 'hex')) AS chars FROM given;
CREATE TEMP VIEW said AS
SELECT 'bytea' AS type, id, (SELECT coalesce(string_agg(pg_temp.line(it), ';' ORDER BY index), '') FROM geojson_features(body) AS it) AS told FROM texts
UNION ALL SELECT 'text', id, (SELECT coalesce(string_agg(pg_temp.line(it), ';' ORDER BY index), '') FROM geojson_features(chars) AS it) FROM texts WHERE chars IS NOT NULL
UNION ALL SELECT 'json', id, (SELECT coalesce(string_agg(pg_temp.line(it), ';' ORDER BY index), '') FROM geojson_features(pg_temp.as_json(chars)) AS it)
FROM texts WHERE pg_temp.as_json(chars) IS NOT NULL;

SELECT type, id, told, findings FROM said JOIN texts USING (id) WHERE told <> findings LIMIT 20;
-- A feature is valid where it breaks no rule, and only then has warnings, perhaps none.
SELECT id, it FROM texts, geojson_features(body) AS it WHERE it.valid <> (it.rule IS NULL) OR (it.message IS NULL) <> it.valid OR (it.warnings IS NOT NULL) <> it.valid LIMIT 20;
SELECT count(*) FROM texts;
