-- A database whose collation is ICU's: in the order of jsonb texts and keys are compared by it.
SET client_min_messages = warning;
CREATE EXTENSION kohiblad;
CREATE EXTENSION kohiblad_compat;
CREATE TABLE words (word text);
INSERT INTO words VALUES (''), ('a'), ('A'), ('ä'), ('Ä'), ('ab'), ('a b'), ('a-b'), ('aB'), ('b'),
    ('B'), ('z'), ('Z'), ('é'), ('e'), ('ê'), ('ß'), ('ss'), ('1'), ('10'), ('2'), ('日本'), ('日');
CREATE TABLE texts AS SELECT to_jsonb(word)::text AS text FROM words
    UNION ALL SELECT jsonb_build_object(word, 1)::text FROM words
    UNION ALL SELECT jsonb_build_array(l.word, r.word)::text FROM words l, words r
    UNION ALL SELECT jsonb_build_object(l.word, 1, r.word, 'a')::text FROM words l, words r;
CREATE TABLE both_types AS SELECT text::jsonb AS j, text::kohiblad AS k FROM texts;
SELECT count(*), count(*) FILTER (WHERE sign(jsonb_cmp(a.j, b.j)) <>
        kohiblad_compat.jsonb_order_cmp(a.k, b.k)),
    count(*) FILTER (WHERE (a.j = b.j) <> (a.k = b.k)) FROM both_types a, both_types b;
-- By bytes Z comes before a, and what ends at a zero byte is a part of the text.
SELECT kohiblad_compat.jsonb_order_cmp('"Z"', '"a"'), kohiblad_cmp('"Z"', '"a"'),
    kohiblad_compat.jsonb_order_cmp('"a\u0000b"', '"a\u0000c"'),
    kohiblad_compat.jsonb_order_cmp('"a\u0000b"', '"a\u0000b"');
-- An index of documents in that order.
CREATE EXTENSION kohiblad_jsonb_order;
CREATE INDEX by_word ON both_types (k);
SET enable_seqscan = off;
SELECT array_agg(k) = (SELECT array_agg(j::kohiblad ORDER BY j) FROM both_types)
FROM (SELECT k FROM both_types ORDER BY k) s;
