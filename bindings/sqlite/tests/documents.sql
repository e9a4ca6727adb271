-- Documents by their bytes, from the rules of docs/FORMAT.md.
SELECT quote(jb('null'));
--> X'2000000000000000'
SELECT quote(jb('true')), quote(jb(' false '));
--> X'2000000040000000'|X'2000000030000000'
SELECT quote(jb('[false,10,{"k":"v"}]'));
--> X'8000000330000000200000025000000E500A4000000110000001100000016B76'

-- Numbers: zero, unsigned, signed, decimals of 64 and 128 bits.
SELECT quote(jb('0')), quote(jb('300')), quote(jb('-1'));
--> X'200000002000000100'|X'200000002000000350012C'|X'200000002000000240FF'
SELECT quote(jb('1.50'));
--> X'200000002000000A70000000000000009602'
SELECT quote(jb('18446744073709551615'));
--> X'200000002000000950FFFFFFFFFFFFFFFF'
SELECT quote(jb('18446744073709551616'));
--> X'2000000020000012700000000000000001000000000000000000'

-- Texts, with two bytes for a character, a zero byte, and none.
SELECT quote(jb('"é"')), quote(jb('"a\u0000b"')), quote(jb('""'));
--> X'2000000010000002C3A9'|X'2000000010000003610062'|X'2000000010000000'

-- SQL values.
SELECT quote(jb(7)), quote(jb_of(7)), quote(jb_of(NULL));
--> X'20000000200000025007'|X'20000000200000025007'|X'2000000000000000'
SELECT quote(jb_of(-9223372036854775808));
--> X'2000000020000009408000000000000000'
SELECT quote(jb_of('é')), quote(jb_of('')), quote(jb_of('a' || char(0) || 'b'));
--> X'2000000010000002C3A9'|X'2000000010000000'|X'2000000010000003610062'

-- A document is checked and returned as it is, also in an old form.
SELECT quote(jb(x'2000000020000009500000000000000007'));
--> X'2000000020000009500000000000000007'
SELECT quote(jb_of(x'2000000020000009500000000000000007'));
--> X'2000000020000009500000000000000007'
SELECT quote(jb_canonical(x'2000000020000009500000000000000007'));
--> X'20000000200000025007'
-- A decimal of 128 bits with an unused byte.
SELECT quote(jb_canonical(x'2000000020000013700000000000000000000000000000009607FF'));
--> X'20000000200000127000000000000000000000000000000096FF'

-- NULL gives NULL, except to jb_of.
SELECT jb(NULL), jb_canonical(NULL), jb_text(NULL), jb_pretty(NULL), jb_valid(NULL);
--> NULL|NULL|NULL|NULL|NULL
SELECT jb_kind(NULL), jb_length(NULL), jb_key(NULL);
--> NULL|NULL|NULL

SELECT jb_valid(jb('[]')), jb_valid('[]'), jb_valid(x''), jb_valid(x'80000000FF'), jb_valid(7);
--> 1|0|0|0|0

-- A result longer than the first room: 10,000 bytes of text.
SELECT length(jb('"' || replace(hex(zeroblob(5000)), '0', 'x') || '"'));
--> 10008
SELECT length(jb_of(replace(hex(zeroblob(5000)), '0', 'x')));
--> 10008
-- An empty array has a header of 4 bytes, and an entry of 4 in the array: 4 + 5000 * 8.
SELECT length(jb('[' || replace(hex(zeroblob(4999)), '00', '[],') || '[]]'));
--> 40004
