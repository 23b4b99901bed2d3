\echo Use "CREATE EXTENSION tdl CASCADE" to load this file. \quit

-- Returns 'ok TEXT' or 'no REASON' for a text. Each session keeps one run of the program for each source, target and options.
CREATE FUNCTION @extschema@.answer(source text, target text, value text, options jsonb DEFAULT '{}') RETURNS text
LANGUAGE plpython3u IMMUTABLE STRICT PARALLEL SAFE COST 1000 AS $$
import json
import tdl

if "\n" in value:
    return "no line-feed"
name = ("tdl", source, target, options)
if name not in GD:
    GD[name] = tdl.Translator(source, target, **json.loads(options))
(found,) = GD[name].translate_list([value])
return f"ok {found}" if isinstance(found, str) else f"no {found.reason}"
$$;

-- Returns the answer to each text of an array, and NULL for NULL.
CREATE FUNCTION @extschema@.answers(source text, target text, "values" text[], options jsonb DEFAULT '{}') RETURNS text[]
LANGUAGE plpython3u IMMUTABLE STRICT PARALLEL SAFE COST 10000 AS $$
import json
import tdl

name = ("tdl", source, target, options)
if name not in GD:
    GD[name] = tdl.Translator(source, target, **json.loads(options))
found = iter(GD[name].translate_list([value for value in values if value is not None and "\n" not in value]))


def answer(value):
    if value is None or "\n" in value:
        return value and "no line-feed"
    it = next(found)
    return f"ok {it}" if isinstance(it, str) else f"no {it.reason}"


return [answer(value) for value in values]
$$;

-- Return the translation, or NULL if there is none.
CREATE FUNCTION @extschema@.translate(source text, target text, value text, options jsonb DEFAULT '{}') RETURNS text
LANGUAGE sql IMMUTABLE STRICT PARALLEL SAFE RETURN substring(@extschema@.answer(source, target, value, options) FROM '^ok (.*)$');

CREATE FUNCTION @extschema@.translate(source text, target text, "values" text[], options jsonb DEFAULT '{}') RETURNS text[]
LANGUAGE sql IMMUTABLE STRICT PARALLEL SAFE RETURN ARRAY(
    SELECT substring(it.answer FROM '^ok (.*)$')
    FROM unnest(@extschema@.answers(source, target, "values", options)) WITH ORDINALITY AS it(answer, number) ORDER BY it.number);

CREATE FUNCTION @extschema@.canon(form text, value text) RETURNS text
LANGUAGE sql IMMUTABLE STRICT PARALLEL SAFE RETURN @extschema@.translate(form, 'canon', value);

CREATE FUNCTION @extschema@.canon(form text, "values" text[]) RETURNS text[]
LANGUAGE sql IMMUTABLE STRICT PARALLEL SAFE RETURN @extschema@.translate(form, 'canon', "values");

-- Return the reason why there is no translation, or NULL if there is one.
CREATE FUNCTION @extschema@.reason(source text, target text, value text, options jsonb DEFAULT '{}') RETURNS text
LANGUAGE sql IMMUTABLE STRICT PARALLEL SAFE RETURN substring(@extschema@.answer(source, target, value, options) FROM '^no (.*)$');

CREATE FUNCTION @extschema@.reason(source text, target text, "values" text[], options jsonb DEFAULT '{}') RETURNS text[]
LANGUAGE sql IMMUTABLE STRICT PARALLEL SAFE RETURN ARRAY(
    SELECT substring(it.answer FROM '^no (.*)$')
    FROM unnest(@extschema@.answers(source, target, "values", options)) WITH ORDINALITY AS it(answer, number) ORDER BY it.number);
