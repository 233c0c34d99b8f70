-- SYNTAX TEST "SQL.sublime-syntax"

-- a comment 'with "quotes
-- <-- comment.line.double-dash punctuation.definition.comment
--           ^^^^^^^^^^^^^ comment - string
# MySQL's comment
-- <- comment.line.number-sign
/* block /* nested */ still */ SELECT 1;
-- <-- comment.block punctuation.definition.comment
--                    ^^^^^ comment.block
--                             ^^^^^^ keyword.other.dml - comment
--                                    ^ constant.numeric.integer
--                                     ^ punctuation.terminator
/*!40101 SET NAMES utf8 */;
--       ^^^ keyword.other.dml - comment
SELECT DISTINCT a.type, t.*, count(*) AS n, "Col" FROM public.users u
-- <------ keyword.other.dml
--     ^^^^^^^^ keyword.other.dml
--               ^ punctuation.accessor
--                ^^^^ variable.other.member - keyword - support
--                        ^ constant.other.wildcard
--                           ^^^^^ support.function.aggregate
--                                    ^^ keyword.other.dml
--                                          ^^^^^ string.quoted.double
--                                                ^^^^ keyword.other.dml
  LEFT JOIN orders o ON o.user_id = u.id AND o.x IS NOT NULL
--^^^^ keyword.other.dml
--     ^^^^ keyword.other.dml
--                   ^^ keyword.other.dml
--                                ^ keyword.operator.comparison
--                                       ^^^ keyword.operator.word
--                                               ^^^^^^ keyword.operator.word
--                                                      ^^^^ constant.language.null
where name like 'it''s -- no' and y <> 'a\'b' or z in (1, 2.5e3, 0xFF, .5)
-- <----- keyword.other.dml
--         ^^^^ keyword.operator.word
--              ^^^ string.quoted.single
--                 ^^ string.quoted.single constant.character.escape
--                     ^^^^^ string.quoted.single - comment
--                            ^^^ keyword.operator.word
--                                  ^^ keyword.operator.comparison
--                                       ^^ constant.character.escape
--                                            ^^ keyword.operator.word
--                                                        ^^^^^ constant.numeric.float
--                                                               ^^^^ constant.numeric.integer.hexadecimal
--                                                                     ^^ constant.numeric.float
--                                                                       ^ punctuation.section.group.end
GROUP BY 1 HAVING sum(x) >= 3 ORDER BY a DESC NULLS LAST LIMIT 10 OFFSET 5;
-- <-------- keyword.other.dml
--         ^^^^^^ keyword.other.dml
--                ^^^ support.function.aggregate
--                       ^^ keyword.operator.comparison
--                            ^^^^^^^^ keyword.other.dml
--                                       ^^^^ keyword.other.dml
--                                            ^^^^^^^^^^ keyword.other.dml
--                                                       ^^^^^ keyword.other.dml
CREATE TABLE IF NOT EXISTS shop.items (
-- <------ keyword.other.ddl
--     ^^^^^ keyword.other.ddl
--           ^^^^^^^^^^^^^ keyword.control
--                         ^^^^ entity.name.namespace
--                              ^^^^^ entity.name.type
  id bigserial PRIMARY KEY,
--   ^^^^^^^^^ support.type
--             ^^^^^^^^^^^ keyword.other.ddl
--                        ^ punctuation.separator
  name varchar(20) NOT NULL DEFAULT 'x',
--     ^^^^^^^ support.type
--                 ^^^ keyword.operator.word
--                     ^^^^ constant.language.null
--                          ^^^^^^^ keyword.other.ddl
  t timestamp with time zone REFERENCES o(id) ON DELETE CASCADE,
--  ^^^^^^^^^^^^^^^^^^^^^^^^ support.type
--                           ^^^^^^^^^^ keyword.other.ddl
--                                                      ^^^^^^^ keyword.other.ddl
  `k` int(11) unsigned AUTO_INCREMENT, price double precision CHECK (price > 0)
--^^^ string.quoted.other.backtick
--    ^^^ support.type
--            ^^^^^^^^ keyword.other.ddl
--                     ^^^^^^^^^^^^^^ keyword.other.ddl
--                                           ^^^^^^^^^^^^^^^^ support.type
--                                                            ^^^^^ keyword.other.ddl
--                                                                         ^ keyword.operator.comparison
) ENGINE=InnoDB;
--^^^^^^ keyword.other.ddl
CREATE UNIQUE INDEX idx ON items (lower(name));
--     ^^^^^^ storage.modifier
--            ^^^^^ keyword.other.ddl
--                  ^^^ entity.name.type
--                      ^^ keyword.other.dml
--                                ^^^^^ support.function
INSERT INTO t (a, b) VALUES ($1, :name), (?, @v) ON CONFLICT DO NOTHING RETURNING id;
-- <------ keyword.other.dml
--     ^^^^ keyword.other.dml
--                   ^^^^^^ keyword.other.dml
--                           ^^ variable.parameter
--                               ^^^^^ variable.parameter
--                                        ^ variable.parameter
--                                           ^^ variable.other
--                                               ^^ keyword
--                                                           ^^ keyword.control
--                                                                      ^^^^^^^^^ keyword.other.dml
SELECT x::text, E'a\n', X'1F', data->>'k', a || b, CASE WHEN p THEN TRUE ELSE false END
--      ^^ keyword.operator.cast
--        ^^^^ support.type
--              ^ storage.type.string
--                 ^^ constant.character.escape
--                       ^^^^ constant.numeric
--                                 ^^^ keyword.operator
--                                    ^^^ string.quoted.single
--                                           ^^ keyword.operator.concatenation
--                                                 ^^^^ keyword.control.conditional
--                                                      ^^^^ keyword.control.conditional
--                                                                  ^^^^ constant.language.boolean
--                                                                       ^^^^ keyword.control.conditional
--                                                                            ^^^^^ constant.language.boolean
--                                                                                  ^^^ keyword.control
FROM f(1) WHERE a LIKE 'x\%' ESCAPE '\' AND row_number() OVER (PARTITION BY z) = 1
--   ^ variable.function
--                           ^^^^^^ keyword.operator.word
--                                  ^^^ string.quoted.single
--                                      ^^^ keyword.operator.word - string
--                                          ^^^^^^^^^^ support.function
--                                                       ^^^^ keyword.other.dml
--                                                             ^^^^^^^^^^^^ keyword.other.dml
;
CREATE OR REPLACE FUNCTION app.add(a integer, b int) RETURNS integer AS $body$
--     ^^^^^^^^^^ storage.modifier
--                ^^^^^^^^ storage.type.function
--                         ^^^ entity.name.namespace
--                             ^^^ entity.name.function
--                                   ^^^^^^^ support.type
--                                                   ^^^^^^^ storage.modifier
--                                                                   ^^ keyword.other.ddl
--                                                                      ^^^^^^ string.quoted.dollar punctuation.definition.string.begin
DECLARE r record; s text := 'a'; -- it's
-- <------- storage.modifier
--        ^^^^^^ support.type
--                       ^^ keyword.operator.assignment
--                               ^^^^^^^ comment
<<outer>>
--^^^^^ entity.name.label
BEGIN
-- <----- keyword.control
  IF NEW.id IS NULL THEN RAISE EXCEPTION 'bad %', x; END IF;
--^^ keyword.control.conditional
--   ^^^ variable.language
--                  ^^^^ keyword.control.conditional
--                       ^^^^^^^^^^^^^^^ keyword.control
--                                                   ^^^^^^ keyword.control.conditional
  FOR r IN SELECT 1 LOOP PERFORM g($$it's text$$); END LOOP;
--^^^ keyword.control.loop
--                  ^^^^ keyword.control.loop
--                       ^^^^^^^ keyword.control
--                                 ^^ punctuation.definition.string.begin
--                                   ^^^^^^^^^ string.quoted.dollar
--                                                 ^^^^^^^^ keyword.control.loop
  RETURN a + b;
--^^^^^^ keyword.control.flow
--         ^ keyword.operator.arithmetic
END;
$body$ LANGUAGE plpgsql IMMUTABLE;
-- <------ punctuation.definition.string.end
--     ^^^^^^^^ storage.modifier
--                      ^^^^^^^^^ storage.modifier
COPY t (a, b) FROM stdin;
-- <---- keyword.other.dml
--                 ^^^^^ constant.language
1	it's "select" \N a\tb
--^^^^ string.unquoted.copy
--      ^^^^^^ string.unquoted.copy - keyword
--              ^^ constant.language.null
--                  ^^ constant.character.escape
\.
-- <-- keyword.other
WITH RECURSIVE c AS (SELECT 1 UNION ALL SELECT n + 1 FROM c) TABLE c;
-- <-------------- keyword.other.dml
--                            ^^^^^ keyword.other.dml
--                                  ^^^ keyword.operator.word
DELIMITER //
-- <--------- keyword.other
GRANT SELECT ON t TO bob;
-- <----- keyword.other.ddl
--                ^^ keyword.other.dml
\d users
-- <-- keyword.other.psql
SELECT 'multi
line', current_date, interval '1 day', now() AT TIME ZONE 'UTC';
-- <----- string.quoted.single
--     ^^^^^^^^^^^^ constant.language
--                   ^^^^^^^^ support.type
--                                     ^^^ support.function
--                                           ^^^^^^^^^^^^ keyword.operator.word
