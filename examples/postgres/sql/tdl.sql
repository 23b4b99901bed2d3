CREATE EXTENSION tdl;
\pset format unaligned
\pset tuples_only on
-- an item's tag, its link, and why a text has none
SELECT tdl_canon('3074257BF7194E4000001A85', 'hex');
SELECT tdl_reason('30', 'hex', 'link');
SELECT tdl_valid('3074257BF7194E4000001A85', 'hex'), tdl_any('(01)80614141123458');
-- options
SELECT tdl_translate('(01)80614141123458(21)6789', 'bracketed', 'hex', gcp => 7, filter => 3);
SELECT tdl_reason('(01)80614141123458(21)6789', 'bracketed', 'hex', gcp => NULL);
SELECT tdl_translate('(01)80614141123458(21)1', 'bracketed', 'pure', gcp => n) FROM generate_series(6, 8) n;
SELECT tdl_class('https://id.gs1.org/01/80614141123458/10/A', 7);
-- labels, tags and links of one thing
CREATE TABLE scans (text text, form text, link text GENERATED ALWAYS AS (tdl_canon(text, form)) STORED);
INSERT INTO scans VALUES ('3074257BF7194E4000001A85', 'hex'), ('(01)80614141123458(21)6789', 'bracketed'), ('urn:epc:id:sgtin:0614141.812345.6789', 'pure');
SELECT link, count(*) FROM scans GROUP BY link;
