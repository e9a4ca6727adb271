-- The conformance lines of comparable keys, which another program computed: the table `lines` has
-- each request and its answer.
CREATE TABLE keys AS
    SELECT decode(request[2], 'hex') AS bytes, decode(answer[2], 'hex') AS key
    FROM (SELECT string_to_array(request, ' ') AS request, string_to_array(answer, ' ') AS answer
          FROM lines WHERE request LIKE 'key %') s;
CREATE TABLE documents AS
    SELECT bytes::kohiblad AS d, key FROM keys WHERE get_byte(key, 0) <> 255;
-- docs/COMPARABLE.md: 588 byte strings, of which 20 and some operands are no documents.
SELECT count(*), count(*) FILTER (WHERE get_byte(key, 0) = 255) >= 20 FROM keys;
SELECT DISTINCT refusal(format('SELECT %L::bytea::kohiblad', bytes)) FROM keys
WHERE get_byte(key, 0) = 255;
SELECT count(*) FROM documents WHERE kohiblad_key(d) <> key;
SELECT count(*) FROM documents a, documents b
WHERE kohiblad_cmp(a.d, b.d) <> CASE WHEN a.key < b.key THEN -1 ELSE (a.key > b.key)::int END;
-- Sorts of many orders: each first document is another reference of the abbreviations.
SELECT count(*) FROM generate_series(1, 100) seed, LATERAL (
    SELECT key, lag(key) OVER (ORDER BY d) AS before
    FROM (SELECT * FROM documents ORDER BY md5(d::bytea || seed::text::bytea)) shuffled) sorted
WHERE before > key;
-- Comparisons with known answers.
SELECT count(*) > 150, count(*) FILTER (WHERE kohiblad_cmp(a::kohiblad, b::kohiblad) <> order_of)
FROM (SELECT decode(request[2], 'hex') AS a, decode(request[3], 'hex') AS b,
             array_position('{less,equal,greater}', answer) - 2 AS order_of
      FROM (SELECT string_to_array(request, ' ') AS request, substr(answer, 4) AS answer
            FROM lines WHERE request LIKE 'cmp %') s) t
WHERE EXISTS (SELECT FROM documents WHERE d::bytea = a)
  AND EXISTS (SELECT FROM documents WHERE d::bytea = b);
