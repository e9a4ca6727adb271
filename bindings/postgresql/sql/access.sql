\set ECHO none \a \t
CREATE TABLE sample AS
    SELECT '{"a":{"b":[10,20,{"c":"x"}]},"n":null,"s":"q\"r","t":true,"é":1.50}'::kohiblad AS d;
-- Members.
SELECT d -> 'a', d -> 'n', d -> 's', d -> 't', d -> 'é' FROM sample;
SELECT d ->> 'a', d ->> 's', d ->> 't', d ->> 'é' FROM sample;
SELECT d ->> 'n' IS NULL, d -> 'zz' IS NULL, d ->> 'zz' IS NULL, d -> NULL::text IS NULL
FROM sample;
SELECT d -> 0 IS NULL, d -> 'a' -> 'b' -> 2 -> 'c' FROM sample;
SELECT '[1]'::kohiblad -> 'a' IS NULL, '"a"'::kohiblad -> 'a' IS NULL, '{"":7}'::kohiblad -> '';
-- Items.
SELECT '[1,"y",3.0]'::kohiblad -> 0, '[1,"y",3.0]'::kohiblad ->> 1, '[1,"y",3.0]'::kohiblad -> -1;
SELECT '[1]'::kohiblad -> 1 IS NULL, '[1]'::kohiblad -> -2 IS NULL;
SELECT '[1]'::kohiblad -> -2147483648 IS NULL, '[1]'::kohiblad -> 2147483647 IS NULL;
SELECT '7'::kohiblad -> 0 IS NULL, '[null]'::kohiblad ->> 0 IS NULL;
-- The text of a number is that which the library prints.
SELECT count(*), bool_and(d ->> 0 = (d -> 0)::text)
FROM (SELECT format('[%s%se-%s]', sign, digits, scale)::kohiblad AS d
      FROM unnest('{"",-}'::text[]) sign, generate_series(0, 255) scale,
          unnest('{0,1,10,999,9223372036854775807,9223372036854775808,18446744073709551615,
              170141183460469231731687303715884105727}'::numeric[]) digits) numbers;
SELECT '[0.00,-0.05,-9223372036854775808,-1.50]'::kohiblad ->> i FROM generate_series(0, 3) i;
-- Paths.
SELECT d #> '{a,b,2,c}', d #>> '{a,b,2,c}', d #> '{a,b,-1}', d #>> '{a,b,0}' FROM sample;
SELECT d #> '{a,b,x}' IS NULL, d #> '{a,b,3}' IS NULL, d #> '{s,0}' IS NULL FROM sample;
SELECT d #> '{a,b,99999999999}' IS NULL, d #> '{a,b,""}' IS NULL, d #> '{a,NULL}' IS NULL
FROM sample;
SELECT d #> '{}' = d, '"x"'::kohiblad #>> '{}', 'null'::kohiblad #>> '{}' IS NULL FROM sample;
SELECT refusal($$ SELECT d #> '{{a},{b}}' FROM sample $$);
SELECT refusal($$ SELECT '["a\u0000b"]'::kohiblad ->> 0 $$);
-- Extension values as texts: binary data as hexadecimal, without quotes; and as a document.
SELECT '\x80000001600000030001ff'::bytea::kohiblad ->> 0;
SELECT '\x80000001600000030001ff'::bytea::kohiblad -> 0;
-- Dates, timestamps and intervals as texts in ISO 8601: 2025-01-02 is 20,090 days from 1970-01-01.
-- As documents, and in the texts of documents, they are what the format prints.
CREATE TABLE timed AS SELECT kohiblad_build_object(
    'date', '\x20000000600000051000004e7a'::kohiblad,
    'stamp', '\x20000000600000092000062ab06a436f35'::kohiblad,
    'zoned', '\x200000006000000d3000062ab06a436f3500001c20'::kohiblad,
    'span', '\x2000000060000011400000000efffffffd0000000141dd7600'::kohiblad) AS d;
SELECT d ->> 'date', d ->> 'stamp', d #>> '{zoned}', d #>> '{span}' FROM timed;
SELECT d -> 'date' #>> '{}', kohiblad_build_array(d -> 'date') ->> -1 FROM timed;
SELECT key, value FROM timed, kohiblad_each_text(d) ORDER BY key;
SELECT d -> 'date', (d -> 'date')::text, (d -> 'date')::json, (d -> 'date')::jsonb FROM timed;
SELECT d::json, kohiblad_build_array(d -> 'date') #>> '{}' FROM timed;
-- A zone as whole hours, its old form; one of seconds; the years 0, -1 and 10000; and no time.
SELECT '\x200000006000000a30000640d6b723800008'::kohiblad #>> '{}',
    '\x200000006000000d300000000000000000fffff377'::kohiblad #>> '{}';
SELECT '\x200000006000000510fff50558'::kohiblad #>> '{}',
    '\x200000006000000510fff50557'::kohiblad #>> '{}',
    '\x200000006000000510002cc0a1'::kohiblad #>> '{}',
    '\x20000000600000114000000000000000000000000000000000'::kohiblad #>> '{}';
-- The days of 600 years, by the calendar of the server, which reads the texts too.
SELECT count(*), count(*) FILTER (WHERE d ->> 0 = to_char('1970-01-01'::date + i, 'YYYY-MM-DD'))
FROM (SELECT i, ('\x800000016000000510' || lpad(to_hex(i), 8, '0'))::kohiblad AS d
      FROM generate_series(-135000, 84000, 7) i) days;
SELECT (d ->> 'date')::date = '2025-01-02',
    (d ->> 'stamp')::timestamp = '2025-01-02 3:04:05.678901',
    (d ->> 'zoned')::timestamptz = '2025-01-02 3:04:05.678901 UTC',
    (d ->> 'span')::interval = '14 months -3 days 1:30' FROM timed;
SELECT r.date = '2025-01-02', r.stamp = '2025-01-02 3:04:05.678901',
    r.zoned = '2025-01-02 3:04:05.678901 UTC', r.span = '14 months -3 days 1:30'
FROM timed, kohiblad_to_record(d)
    AS r(date date, stamp timestamp, zoned timestamptz, span interval);
-- Values that the table stores compressed, and out of line.
CREATE TABLE wide (d kohiblad);
INSERT INTO wide SELECT kohiblad_object_agg('key ' || i, ('"' || md5(i::text) || '"')::kohiblad)
    FROM generate_series(1, 5000) i;
INSERT INTO wide SELECT ('["' || repeat('x', 1000000) || '",5]')::kohiblad;
SELECT d ->> 'key 4321' = md5('4321') FROM wide WHERE kohiblad_kind(d) = 'object';
SELECT pg_column_size(d) < 20000, d -> 1, length(d ->> 0)
FROM wide WHERE kohiblad_kind(d) = 'array';
SELECT count(*) FROM wide a JOIN wide b ON a.d = b.d;
SELECT count(*) FROM (SELECT DISTINCT d FROM wide) s;
SELECT kohiblad_kind(d) FROM wide ORDER BY d;
