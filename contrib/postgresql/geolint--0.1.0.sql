-- The functions of the extension. Run by CREATE EXTENSION alone.
\echo Use "CREATE EXTENSION geolint" to load this file. \quit

CREATE TYPE geojson_verdict AS (
    valid boolean,
    rule text,
    place bigint,
    path text,
    message text,
    warnings jsonb
);
COMMENT ON TYPE geojson_verdict IS 'what a text is: valid, or the broken rule or the cause at this byte; warnings of a valid text';

CREATE FUNCTION is_geojson(body text, max_depth integer DEFAULT 256, max_bytes bigint DEFAULT 1152921504606846976, deny text[] DEFAULT '{}')
RETURNS boolean AS 'MODULE_PATHNAME', 'is_geojson_text' LANGUAGE C IMMUTABLE STRICT PARALLEL SAFE COST 100;

CREATE FUNCTION is_geojson(body json, max_depth integer DEFAULT 256, max_bytes bigint DEFAULT 1152921504606846976, deny text[] DEFAULT '{}')
RETURNS boolean AS 'MODULE_PATHNAME', 'is_geojson_text' LANGUAGE C IMMUTABLE STRICT PARALLEL SAFE COST 100;

CREATE FUNCTION is_geojson(body bytea, max_depth integer DEFAULT 256, max_bytes bigint DEFAULT 1152921504606846976, deny text[] DEFAULT '{}')
RETURNS boolean AS 'MODULE_PATHNAME', 'is_geojson_bytea' LANGUAGE C IMMUTABLE STRICT PARALLEL SAFE COST 100;

CREATE FUNCTION is_geojson(body jsonb, max_depth integer DEFAULT 256, max_bytes bigint DEFAULT 1152921504606846976, deny text[] DEFAULT '{}')
RETURNS boolean AS 'MODULE_PATHNAME', 'is_geojson_jsonb' LANGUAGE C IMMUTABLE STRICT PARALLEL SAFE COST 200;

CREATE FUNCTION geojson_report(body text, max_depth integer DEFAULT 256, max_bytes bigint DEFAULT 1152921504606846976)
RETURNS geojson_verdict AS 'MODULE_PATHNAME', 'geojson_report_text' LANGUAGE C IMMUTABLE STRICT PARALLEL SAFE COST 100;

CREATE FUNCTION geojson_report(body json, max_depth integer DEFAULT 256, max_bytes bigint DEFAULT 1152921504606846976)
RETURNS geojson_verdict AS 'MODULE_PATHNAME', 'geojson_report_text' LANGUAGE C IMMUTABLE STRICT PARALLEL SAFE COST 100;

CREATE FUNCTION geojson_report(body bytea, max_depth integer DEFAULT 256, max_bytes bigint DEFAULT 1152921504606846976)
RETURNS geojson_verdict AS 'MODULE_PATHNAME', 'geojson_report_bytea' LANGUAGE C IMMUTABLE STRICT PARALLEL SAFE COST 100;

CREATE TYPE geojson_finding AS (
    index bigint,
    start_place bigint,
    end_place bigint,
    id_place bigint,
    valid boolean,
    rule text,
    place bigint,
    message text,
    warnings jsonb
);
COMMENT ON TYPE geojson_finding IS 'what is found in a feature: its number, from 0, its bytes from start_place to before end_place, the place of its id; valid, or the broken rule at this byte; warnings of a valid one';

CREATE FUNCTION geojson_features(body text, max_depth integer DEFAULT 256, max_bytes bigint DEFAULT 1152921504606846976)
RETURNS SETOF geojson_finding AS 'MODULE_PATHNAME', 'geojson_features_text' LANGUAGE C IMMUTABLE STRICT PARALLEL SAFE COST 100 ROWS 1000;

CREATE FUNCTION geojson_features(body json, max_depth integer DEFAULT 256, max_bytes bigint DEFAULT 1152921504606846976)
RETURNS SETOF geojson_finding AS 'MODULE_PATHNAME', 'geojson_features_text' LANGUAGE C IMMUTABLE STRICT PARALLEL SAFE COST 100 ROWS 1000;

CREATE FUNCTION geojson_features(body bytea, max_depth integer DEFAULT 256, max_bytes bigint DEFAULT 1152921504606846976)
RETURNS SETOF geojson_finding AS 'MODULE_PATHNAME', 'geojson_features_bytea' LANGUAGE C IMMUTABLE STRICT PARALLEL SAFE COST 100 ROWS 1000;

CREATE FUNCTION geolint_version()
RETURNS text AS 'MODULE_PATHNAME', 'version_of_geolint' LANGUAGE C IMMUTABLE STRICT PARALLEL SAFE;
COMMENT ON FUNCTION geolint_version() IS 'the version of the library in this module';

CREATE FUNCTION geolint_build(OUT version text, OUT commit text, OUT kit text)
AS 'MODULE_PATHNAME', 'build_of_geolint' LANGUAGE C STABLE STRICT PARALLEL SAFE;
COMMENT ON FUNCTION geolint_build() IS 'what this module was built from: the version of the library, and of a package the commit and the proof kit';
