\set ECHO none \a \t
-- Extension values have no form in JSON, so a document that holds one is written in hexadecimal.
-- One of each kind in an array, one far inside, and one alone: docs/FORMAT.md has their payloads.
CREATE TABLE extended AS SELECT * FROM (VALUES
    ('kinds', '\x800000066000000260000005600000096000000d600000116000000300ff1000000001'
              '20000000000000000230000000000000000300000e10'
              '400000000100000002000000000000000350abcd'::bytea::kohiblad),
    ('inside', '\x40000001100000015000001a6140000001100000015000000d6280000001600000051000000001'
               ::bytea::kohiblad),
    ('alone', '\x20000000600000051000000001'::bytea::kohiblad),
    ('deep', nested_bytes(1000, '\x80000001600000051000000001')::kohiblad)) v(name, d);
SELECT name, d FROM extended WHERE name <> 'deep' ORDER BY name;
SELECT count(*) FROM extended WHERE d::text = d::bytea::text AND left(d::text, 2) = '\x';
SELECT count(*) FROM extended WHERE d::text::kohiblad::bytea = d::bytea;
SELECT count(*) FROM extended WHERE ('\x' || upper(substr(d::text, 3)))::kohiblad::bytea = d::bytea;
SELECT count(*) FROM extended e
WHERE ARRAY[d]::text::kohiblad[] = ARRAY[d] AND (e::text::extended).d = d;
-- They are shown as strings where no text is read back.
SELECT name, d #>> '{}' FROM extended WHERE name <> 'deep' ORDER BY name;
SELECT d ->> 'a', d #>> '{a,b,0}', kohiblad_pretty(d -> 'a' -> 'b') FROM extended
WHERE name = 'inside';
SELECT d #>> '{}' = replace(nested_text(1000), '[]', '["1"]') FROM extended WHERE name = 'deep';
-- Other documents are written as JSON, also with bytes like those of an extension value's entry.
SELECT '["`",96,0.96,"`` ```",{"`":-96}]'::kohiblad;
SELECT ('["' || repeat('a', 96) || '"]')::kohiblad::text = '["' || repeat('a', 96) || '"]';
SELECT '"\\x20000000600000051000000001"'::kohiblad, '\x2000000000000000'::kohiblad;
-- Beside 2^24 bytes, and of so many.
SELECT d::text::kohiblad::bytea = d::bytea, d::text LIKE '\\x80000002110000006000000561616161%',
    (d -> 0)::text LIKE '"aaaaaaaaaa%' AND length((d -> 0)::text) = 2 + (1 << 24)
FROM (SELECT (decode('800000021100000060000005' || repeat('61', 1 << 24), 'hex')
              || '\x1000000001')::kohiblad AS d) s;
SELECT d::text::kohiblad::bytea = d::bytea, left(d::text, 22), length(d::text)
FROM (SELECT decode('200000006100000100' || repeat('ff', 1 << 24), 'hex')::kohiblad AS d) s;
-- Pretty texts of many bytes, which are written value by value.
CREATE FUNCTION lines_of(margin text, count int) RETURNS text LANGUAGE sql AS $$
    SELECT replace('[' || string_agg(E'
  {
    "a\\"": ' || i || E',
    "é": [
      {}
    ]
  }', ',' ORDER BY i) || E'
]', E'\n', E'\n' || margin) FROM generate_series(1, count) i
$$;
CREATE TABLE long_lines AS SELECT kohiblad_agg(kohiblad_build_object('a"', i, 'é', '[{}]'::kohiblad)
    ORDER BY i) AS d FROM generate_series(1, 20000) i;
SELECT length(d::bytea) > 500000, kohiblad_pretty(d) = lines_of('', 20000),
    kohiblad_pretty(kohiblad_build_object('b', d, 'x', '[]'::kohiblad, 'z"',
        kohiblad_build_array(d, 1))) = format(E'{
  "b": %s,
  "x": [],
  "z\\"": [
    %s,
    1
  ]
}', lines_of('  ', 20000), lines_of('    ', 20000)) FROM long_lines;
-- What a terminal may obey has an escape.
SELECT detail_of($$ SELECT ('[' || chr(8238) || 'x' || chr(155) || ']')::kohiblad $$);
-- Bad hexadecimal, and bytes that are no document.
SELECT refusal($$ SELECT '\x2000000g'::kohiblad $$), detail_of($$ SELECT '\x2000000g'::kohiblad $$);
SELECT refusal($$ SELECT '\x200'::kohiblad $$), detail_of($$ SELECT '\x200'::kohiblad $$);
SELECT refusal($$ SELECT '\x20 000000'::kohiblad $$), detail_of($$ SELECT '\xé'::kohiblad $$);
SELECT refusal($$ SELECT '\x'::kohiblad $$), refusal($$ SELECT '\x20000000'::kohiblad $$);
SELECT refusal($$ SELECT nested_bytes(1001)::text::kohiblad $$);
SELECT refusal($$ SELECT '\X2000000000000000'::kohiblad $$), refusal($$ SELECT '\'::kohiblad $$);
