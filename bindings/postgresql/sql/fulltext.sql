\set ECHO none \a \t
-- Full text search over documents has the answers that it has over jsonb.
SELECT to_tsvector('simple', '{"a": "aaa bbb", "b": ["eee fff"], "c": {"d": "hhh"}}'::kohiblad);
SELECT kohiblad_to_tsvector('simple', '{"a": "aaa", "b": 12.50, "c": true}'::kohiblad, '"all"');
SELECT kohiblad_to_tsvector('simple', '{"a": "aaa", "b": 12.50}'::kohiblad, '["numeric", "key"]');
SELECT ts_headline('simple', '{"a": "aaa bbb", "n": 1.50}'::kohiblad, 'bbb'::tsquery);
SELECT ts_headline('simple', '["aaa bbb"]'::kohiblad, 'bbb'::tsquery, 'StartSel = <, StopSel = >');
CREATE TABLE articles AS
SELECT i AS id, kohiblad_build_object('title', 'The ' || words[i % 5 + 1] || ' cats', 'longer title',
    ARRAY['sat on ' || words[i % 3 + 1], 'mats'], 'n', i, 'is', i % 2 = 0) AS d
FROM (SELECT ARRAY['fat', 'old', 'running', 'hungry', 'sleepy'] AS words) w, generate_series(1, 100) i;
SELECT count(*) FROM articles
WHERE to_tsvector(d) = to_tsvector(d::jsonb)
  AND to_tsvector('english', d) = to_tsvector('english', d::jsonb)
  AND kohiblad_to_tsvector(d, '"all"') = jsonb_to_tsvector(d::jsonb, '"all"')
  AND kohiblad_to_tsvector('simple', d, '["string"]') =
      jsonb_to_tsvector('simple', d::jsonb, '["string"]')
  AND ts_headline(d, 'cat & mat') = ts_headline(d::jsonb, 'cat & mat')
  AND ts_headline(d, 'cat', 'StartSel = <') = ts_headline(d::jsonb, 'cat', 'StartSel = <')
  AND ts_headline('simple', d, 'cats') = ts_headline('simple', d::jsonb, 'cats')
  AND ts_headline('simple', d, 'cats', 'StopSel = >') =
      ts_headline('simple', d::jsonb, 'cats', 'StopSel = >')
  AND ts_headline(d, 'cat & mat') <> d;
-- An index on the words is used.
CREATE INDEX words_of_articles ON articles USING gin (to_tsvector('english', d));
SET enable_seqscan = off;
SELECT plan_has($$ SELECT FROM articles WHERE to_tsvector('english', d) @@ 'run & cat' $$,
                'Bitmap Index Scan on words_of_articles');
RESET enable_seqscan;
SELECT count(*) FROM articles WHERE to_tsvector('english', d) @@ 'run & cat';
-- A literal is a text, and a jsonb is what it was.
SELECT to_tsvector('simple', 'a b'), ts_headline('simple', 'a b', 'b'::tsquery),
    pg_typeof(ts_headline('{}'::jsonb, 'b'));
-- What jsonb cannot hold has no words; extension values are strings.
SELECT refusal($$ SELECT to_tsvector('"a\u0000b"'::kohiblad) $$);
SELECT to_tsvector('simple', '\x20000000600000051000000001'::kohiblad);
SELECT to_tsvector(NULL::kohiblad) IS NULL, ts_headline(NULL::kohiblad, 'a') IS NULL;
