\echo Use "ALTER EXTENSION tdl UPDATE" to load this file. \quit

-- Returns the translation of a text, or NULL if it has none.
CREATE OR REPLACE FUNCTION tdl_translate(
    value text, source text, target text, filter int DEFAULT -1, gcp int DEFAULT 0, encoding text DEFAULT '', keys_only boolean DEFAULT false,
    stem text DEFAULT 'https://id.gs1.org', tables text DEFAULT '', prefixes text DEFAULT ''
) RETURNS text
AS 'MODULE_PATHNAME', 'pg_tdl_translate' LANGUAGE c IMMUTABLE PARALLEL SAFE COST 20;

-- Returns why a text has no translation, or NULL if it has one.
CREATE OR REPLACE FUNCTION tdl_reason(
    value text, source text, target text, filter int DEFAULT -1, gcp int DEFAULT 0, encoding text DEFAULT '', keys_only boolean DEFAULT false,
    stem text DEFAULT 'https://id.gs1.org', tables text DEFAULT '', prefixes text DEFAULT ''
) RETURNS text
AS 'MODULE_PATHNAME', 'pg_tdl_reason' LANGUAGE c IMMUTABLE PARALLEL SAFE COST 20;

-- Returns the canonical link of a text, or NULL if it has none.
CREATE OR REPLACE FUNCTION tdl_canon(value text, source text) RETURNS text
AS 'MODULE_PATHNAME', 'pg_tdl_translate' LANGUAGE c IMMUTABLE PARALLEL SAFE COST 20;

-- Returns why a text has no canonical link, or NULL if it has one.
CREATE OR REPLACE FUNCTION tdl_reason(value text, source text) RETURNS text
AS 'MODULE_PATHNAME', 'pg_tdl_reason' LANGUAGE c IMMUTABLE PARALLEL SAFE COST 20;

-- Returns whether a text has a canonical link, and so names something.
CREATE FUNCTION tdl_valid(value text, source text) RETURNS boolean
AS 'MODULE_PATHNAME', 'pg_tdl_valid' LANGUAGE c IMMUTABLE PARALLEL SAFE COST 20;

-- Returns the one form that reads a text: hex, tag, pure, raw, bracketed, link, gtin or sscc; NULL if none does or two could be meant.
CREATE FUNCTION tdl_any(value text) RETURNS text
AS 'MODULE_PATHNAME', 'pg_tdl_any' LANGUAGE c IMMUTABLE PARALLEL SAFE COST 40;

-- Returns the class URI of a link, by the length of its company prefix, or NULL if it has none.
CREATE FUNCTION tdl_class(value text, gcp int DEFAULT 0) RETURNS text
AS 'MODULE_PATHNAME', 'pg_tdl_class' LANGUAGE c IMMUTABLE PARALLEL SAFE COST 20;
