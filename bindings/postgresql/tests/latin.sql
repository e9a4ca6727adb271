-- A database whose encoding is LATIN1: documents are UTF-8, and texts are converted.
SET client_encoding = 'UTF8';
CREATE EXTENSION kohiblad;
SELECT '{"é":"ü"}'::kohiblad, '{"é":"ü"}'::kohiblad -> 'é', '{"é":"ü"}'::kohiblad ->> 'é';
SELECT '"é"'::kohiblad::bytea, key FROM kohiblad_each('{"é":1}');
SELECT kohiblad_object_agg('é', '"ü"'::kohiblad), kohiblad_pretty('["é"]') = E'[\n  "é"\n]';
SELECT '"\u65e5"'::kohiblad::bytea;
SELECT '{"é":1}'::kohiblad ? 'é', kohiblad_set('{}', '{é}', '"ü"'), '["é"]'::kohiblad - 'é',
    to_kohiblad('ü'::text)::bytea, ('{"é":1}'::kohiblad)['é'], '{"é":1}'::kohiblad @? '$."é"';
SELECT * FROM kohiblad_to_record('{"é":"ü"}') AS t("é" text);
CREATE TABLE accents (d kohiblad);
INSERT INTO accents VALUES ('{"é":"ü"}'), ('{"é":"u"}');
CREATE INDEX ON accents USING gin (d);
SET enable_seqscan = off;
SELECT count(*) FROM accents WHERE d ? 'é' AND d @> '{"é":"ü"}' AND d @@ '$."é" == "ü"';
RESET enable_seqscan;
-- What LATIN1 lacks is written as JSON's escapes, and so read back. A plain text has none.
CREATE TABLE lacking (id int, d kohiblad);
INSERT INTO lacking VALUES (1, '"\u20ac"'), (2, '{"\u65e5é":["\\\u20acü", "\ud834\udd1e"]}');
INSERT INTO lacking SELECT 3, kohiblad_agg(repeat('é', i) || i ORDER BY i) || '"\u20ac"'
    || kohiblad_build_array(repeat('é', 5000)) FROM generate_series(1, 600) i;
SELECT d, d::json FROM lacking WHERE id < 3 ORDER BY id;
SELECT kohiblad_pretty(d), d #>> '{}' FROM lacking WHERE id = 2;
SELECT count(*) FROM lacking WHERE d::text::kohiblad::bytea = d::bytea
    AND d::json::kohiblad::bytea = d::bytea AND kohiblad_pretty(d)::kohiblad = d;
SELECT d::text LIKE '%éé600%\\u20ac%éééé%' FROM lacking WHERE id = 3;
SELECT to_kohiblad(lacking)::text, row_to_json(lacking) FROM lacking WHERE id = 1;
SELECT * FROM kohiblad_to_record('{"a":["\u20ac"],"b":{"\u20ac":1}}') AS t(a kohiblad, b json);
-- In the order of jsonb texts are compared as the server has them: its escapes are for what it lacks.
CREATE EXTENSION kohiblad_compat;
SET search_path = kohiblad_compat, public;
SELECT jsonb_order_cmp('"é"', '"z"'), jsonb_order_cmp('"é"', '"ÿ"'),
    jsonb_order_cmp('{"é":1}', '{"è":2}'), jsonb_order_cmp('"\u20ac"', '"a"'),
    jsonb_order_cmp('"\u20ac"', '"]"'), jsonb_order_cmp('"\u20ac"', '"\\u20ac"'),
    jsonb_order_cmp('"\u20ac"', '"\u20ac"');
RESET search_path;
DROP EXTENSION kohiblad_compat;
\set ON_ERROR_STOP off
SELECT '{"é":x}'::kohiblad;
\set VERBOSITY sqlstate
SELECT '["\u65e5"]'::kohiblad ->> 0;
SELECT kohiblad_each_text('{"\u65e5":1}');
SELECT '"\u65e5"'::kohiblad::jsonb;
SELECT * FROM kohiblad_to_record('{"a":"\u20ac"}') AS t(a text);
