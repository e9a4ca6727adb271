\set ECHO none \a \t
-- Long texts are parsed a piece at a time. The function is there for this test: it divides a text
-- into pieces of at least so many bytes, and returns NULL if it cannot, or the text is refused.
CREATE FUNCTION of_pieces(json text, piece int) RETURNS kohiblad
AS '$libdir/kohiblad', 'pg_kohiblad_of_pieces' LANGUAGE C STRICT;
SELECT of_pieces(t, 1), of_pieces(t, 8), of_pieces(t, 1000) FROM (VALUES
    ('[1,[2,3],{"a":[4,{"b":5}]},"x"]'), (' { "b" : [1, 2] , "a" : {"d": [], "c": {}} } '),
    ('["],[",{"\"}":"{\\"},"\\",[[[[[[[1,2],3],4],5],6],7],8]]'), ('[]'), (' { } '),
    ('[[ ], { } ]'), ('{"é":"€,","\ud83d\ude00":[1.50,1e2]}')) v(t);
-- Of a key that comes twice the last value counts, in whatever pieces the two are.
SELECT of_pieces('{"a":1,"b":[2,3],"a":[4,5,6],"\u0062":7,"c":{"d":1,"e":2,"d":3}}', piece)
FROM (VALUES (1), (6), (9), (14), (20), (1000)) v(piece);
-- What is no array or object is not divided, and what is not JSON is refused.
SELECT count(*) FROM (VALUES ('1'), ('"[1,2]"'), ('null'), (''), (' '), ('['), ('[1'), ('[1,'),
    ('[1,]'), ('[,1]'), ('[1,,2]'), ('[1}'), ('{1]'), ('[1] [2]'), ('[1],[2]'), ('[[1] [2]]'),
    ('[1]]'), ('[[1]'), ('["a]'), ('["\"]'), ('{"a"}'), ('{"a":}'), ('{"a":1,}'), ('{a:1}'),
    ('{"a":1:2}'), ('{"a" "b":[1,2]}'), ('{"a":[1,2] 3}'), ('{:[1,2]}'), ('{"a\":[1,2]}'),
    ('[01,2]'), ('["' || chr(9) || '",1]'), ('{"a":1}}'), ('[{"a":1]}')) v(t),
    generate_series(1, 9) piece
WHERE of_pieces(t, piece) IS NOT NULL;
-- Levels are counted through the pieces.
SELECT of_pieces(nested_text(1000), piece) = nested_text(1000)::kohiblad,
    of_pieces(nested_text(1001), piece) IS NULL,
    of_pieces('{"a":[' || repeat('[', 998) || repeat(']', 998) || ',1]}', piece) IS NOT NULL,
    of_pieces('{"a":[' || repeat('[', 999) || repeat(']', 999) || ',1]}', piece) IS NULL
FROM (VALUES (1), (100), (1500)) v(piece);
-- Random texts: 200 values, then five times 200 arrays and objects of these; half of the texts are
-- broken by a character that is put in, replaced or left out.
SELECT setseed(0.37) IS NOT NULL;
CREATE TABLE pool (number serial, t text);
INSERT INTO pool (t) SELECT (ARRAY['null', 'true', '-7', '1.50', '1e2', '12345678901234567890',
    '""', '"a"', '"é\n"', '"[,{"', '"]}:"', '"\\"', '"\"\u0061"', ' 3 ', '[]', '{ }'])
    [1 + floor(random() * 16)::int] FROM generate_series(1, 200);
CREATE FUNCTION add_to_pool() RETURNS void LANGUAGE sql AS $$
    WITH children AS (
        SELECT n, '"' || (ARRAY['a', 'b', 'c', 'é', '\u0061', 'a,', '[', '', 'long name', '\\'])
                [1 + floor(random() * 10)::int] || '" :' AS name, t
        FROM generate_series(1, 200) n, LATERAL (
            SELECT t FROM pool ORDER BY random() + n LIMIT floor(random() * 7)::int) picked)
    INSERT INTO pool (t) SELECT CASE WHEN n % 2 = 0 THEN '[' || string_agg(t, ',') || ' ]'
        ELSE '{' || string_agg(name || t, ',') || '}' END FROM children GROUP BY n
$$;
DO $$ BEGIN FOR i IN 1 .. 5 LOOP PERFORM add_to_pool(); END LOOP; END $$;
CREATE TABLE tried AS SELECT random() < 0.5 AS is_broken, 1 + floor(random() * 60)::int AS piece,
    1 + floor(random() * length(t))::int AS place, floor(random() * 2)::int AS replaced,
    (ARRAY['[', ']', '{', '}', ',', ':', '"', '\', ' ', 'x', '0', ''])
        [1 + floor(random() * 12)::int] AS put, t
FROM pool, generate_series(1, 40);
UPDATE tried SET t = overlay(t PLACING put FROM place FOR replaced) WHERE is_broken;
CREATE FUNCTION whole_of(json text) RETURNS kohiblad LANGUAGE sql AS $$
    SELECT CASE WHEN kohiblad_fits(json) AND json ~ '^\s*[[{]' THEN json::kohiblad END
$$;
SELECT count(*) > 20000, count(*) FILTER (WHERE whole IS NULL) > 5000,
    count(*) FILTER (WHERE whole IS NOT NULL) > 10000,
    count(*) FILTER (WHERE whole::bytea IS DISTINCT FROM pieces::bytea)
FROM (SELECT whole_of(t) AS whole, of_pieces(t, piece) AS pieces FROM tried) s;
DROP TABLE pool, tried;
-- A text of more than 4 MB is divided by itself: it has the document of a text that is one piece.
CREATE TABLE long AS SELECT * FROM (VALUES
    ('items', '[' || repeat('{"id":7,"tags":["a","b"]},', 200000) || '0]'),
    ('members', (SELECT '{' || string_agg(format('"k%s":%s', i * 4999 % 300000, i), ',') || '}'
                 FROM generate_series(1, 400000) i)),
    ('inside', '{"all":{"rows":[' || repeat('1.50,[],', 600000) || 'null]},"count":1}'),
    ('deep', repeat('[', 1000) || repeat('1,', 2200000) || '1' || repeat(']', 1000)),
    ('one', '["' || repeat('a', 4500000) || '"]'),
    ('text', '"' || repeat('a', 4500000) || '"')) v(name, t);
SELECT name, t::kohiblad::bytea = coalesce(of_pieces(t, 1 << 30),
                                           of_pieces('[' || t || ']', 1 << 30) -> 0)::bytea,
    kohiblad_fits(t), kohiblad_fault(t) IS NULL
FROM long ORDER BY name;
-- The fault of a long text is that of the whole.
SELECT kohiblad_fault('[' || repeat('1,', 2200000) || 'x]');
SELECT kohiblad_fault(repeat('[', 1001) || repeat('1,', 2200000) || '1' || repeat(']', 1001));
DROP TABLE long;
