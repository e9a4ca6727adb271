-- The place is after the bytes that begin some JSON text.
SELECT jb('{"a":');
--! jb: InvalidJson: expected a value at byte 5, found the end
SELECT jb('');
--! jb: InvalidJson: expected a value at byte 0, found the end
SELECT jb('[1,]');
--! jb: InvalidJson: expected a value at byte 3, found ']'
SELECT jb('{"a":1,}');
--! jb: InvalidJson: expected a key at byte 7, found '}'
SELECT jb('[1]]');
--! jb: InvalidJson: expected the end at byte 3, found ']'
SELECT jb('NaN');
--! jb: InvalidJson: expected a value at byte 0, found 'NaN'
SELECT jb('[' || char(0x202e) || 'x' || char(0x9b) || ']');
--! jb: InvalidJson: expected a value or ']' at byte 1, found '\u202ex\u009b'
SELECT jb('01');
--! jb: InvalidJson: expected '.', an exponent or the end at byte 1, found '1'
SELECT jb('"' || char(0) || '"');
--! jb: InvalidJson: expected the rest of a string at byte 1, found 0x00
SELECT jb('1' || char(0));
--! jb: InvalidJson: expected a digit, '.', an exponent or the end at byte 1, found 0x00
SELECT jb('"\ud800"');
--! jb: InvalidJson: expected the other half of a surrogate pair at byte 7, found '"'
-- Bytes of UTF-8, in a database of UTF-16 too: the first letter has two, the second four.
SELECT jb('["é" 1]');
--! jb: InvalidJson: expected ',' or ']' at byte 6, found '1'
SELECT jb('["' || char(0x1F600) || '" 1]');
--! jb: InvalidJson: expected ',' or ']' at byte 8, found '1'
-- A number is at fault: great exponents, 39 digits past 128 bits, and 256 after the point.
SELECT jb('1e99');
--! jb: BadNumber: at byte 3 of a number that is unfinished or too long, in '1e99'
SELECT jb('{"a": 1e999}');
--! jb: BadNumber: at byte 9 of a number that is unfinished or too long, in '1e999'
SELECT jb('{"a": [1, 2.5e-999]}');
--! jb: BadNumber: at byte 17 of a number that is unfinished or too long, in '2.5e-999'
SELECT jb('999999999999999999999999999999999999999');
--! jb: BadNumber: at byte 38 of a number that is unfinished or too long, in '999999999999999999999999999999999999999'
SELECT jb('170141183460469231731687303715884105728');
--! jb: BadNumber: at byte 38 of a number that is unfinished or too long, in '170141183460469231731687303715884105728'
SELECT jb('0.' || hex(zeroblob(128)));
--! jb: BadNumber: at byte 258 of a number that is unfinished or too long, in '0000000000000000000000000000000000000000'
-- Unfinished numbers.
SELECT jb('[1.]');
--! jb: BadNumber: at byte 3 of a number that is unfinished or too long, in '1.'
SELECT jb('-');
--! jb: BadNumber: at byte 1 of a number that is unfinished or too long, in '-'
-- A number and something else: the first of both is reported.
SELECT jb('[1e5,]');
--! jb: InvalidJson: expected a value at byte 5, found ']'
SELECT jb('[1e99,]');
--! jb: BadNumber: at byte 4 of a number that is unfinished or too long, in '1e99'
SELECT jb_compare(jb('[]'), '[1');
--! jb_compare: InvalidJson: expected a digit, '.', ',', ']' or an exponent at byte 2, found the end
SELECT jb_compare('1e99', '[1');
--! jb_compare: BadNumber: at byte 3 of a number that is unfinished or too long, in '1e99'
SELECT jb_compare(1.5, 'null');
--! jb_compare: BadNumber: a REAL is refused, pass decimals as TEXT
SELECT jb_compare('null', 1.5);
--! jb_compare: BadNumber: a REAL is refused, pass decimals as TEXT
SELECT jb(1.5);
--! jb: BadNumber: a REAL is refused, pass decimals as TEXT
SELECT jb_of(1.0);
--! jb_of: BadNumber: a REAL is refused, pass decimals as TEXT
SELECT jb(x'');
--! jb: InvalidJsonb
SELECT jb_of(x'00');
--! jb_of: InvalidJsonb
SELECT jb_text('[]');
--! jb_text: InvalidJsonb: a document is a BLOB
SELECT jb_text(1.5);
--! jb_text: InvalidJsonb: a document is a BLOB
-- A text that is not UTF-8.
SELECT jb_text(x'2000000010000001FF');
--! jb_text: InvalidJsonb
SELECT jb_pretty(x'2000000010000001FF');
--! jb_pretty: InvalidJsonb
SELECT jb_canonical(x'2000000010000001FF');
--! jb_canonical: InvalidJsonb
SELECT jb_value(x'2000000010000001FF', '$');
--! jb_value: InvalidJsonb
SELECT jb_value(x'8000000110000001FF', '$');
--! jb_value: InvalidJsonb
SELECT jb_key('a');
--! jb_key: InvalidJsonb: a document is a BLOB
-- A stored double is no document.
SELECT jb_text(x'2000000020000009603FF8000000000000');
--! jb_text: InvalidJsonb
SELECT jb_value(x'2000000020000009603FF8000000000000', '$');
--! jb_value: InvalidJsonb
SELECT jb_get(x'00', 'a');
--! jb_get: InvalidEOF
SELECT jb_at(x'00', '$.a');
--! jb_at: InvalidEOF
SELECT jb_kind(x'');
--! jb_kind: InvalidEOF
SELECT jb_kind(x'FFFFFFFF');
--! jb_kind: InvalidJsonb
SELECT jb_length(x'FFFFFFFF');
--! jb_length: InvalidJsonb
SELECT jb_get(jb('{}'), 5);
--! jb_get: OtherKind: names and paths are TEXT
SELECT jb_at(jb('{}'), 5);
--! jb_at: OtherKind: names and paths are TEXT

-- 1,000 brackets are a document; 1,001 and 100,000 are refused.
CREATE TABLE deep AS SELECT replace(hex(zeroblob(500)), '0', '[') AS opened,
    replace(hex(zeroblob(500)), '0', ']') AS closed;
SELECT jb_valid(jb(opened || closed)) FROM deep;
--> 1
SELECT jb('[' || opened || closed || ']') FROM deep;
--! jb: TooDeep
SELECT jb_compare('[]', '[' || opened || closed || ']') FROM deep;
--! jb_compare: TooDeep
SELECT jb(opened || '}') FROM deep;
--! jb: InvalidJson: expected a value or ']' at byte 1000, found '}'
SELECT jb(replace(hex(zeroblob(50000)), '0', '['));
--! jb: TooDeep
SELECT jb_group_array(jb(opened || closed)) FROM deep;
--! jb_group_array: InvalidJsonb
SELECT jb_kind(jb_group_array(jb(substr(opened, 2) || substr(closed, 2)))) FROM deep;
--> array
