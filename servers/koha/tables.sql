-- The six tables of a base, as Koha has them. Each *_rows has a row for each row of Koha: its columns as sip_replay wants
-- them, `left_out` (why it is no row of the table, or '') and `cleaned` (what was changed in it, or '').
-- export prints them, load compares with them. This text comes after "WITH maps (kind, here, sip2) AS (..)", which is the file of maps,
-- and @day, the day of the base's moment. NO_BACKSLASH_ESCAPES is on: the backslashes are those of regular expressions.
people AS (
    SELECT b.borrowernumber, b.cardnumber AS card, CONCAT_WS(' ', b.firstname, b.surname) AS name, b.debarred,
           COALESCE(c.categorycode, b.categorycode) AS class,
           COALESCE(b.debarred > @day, 0) AS is_debarred,
           COALESCE(b.lost, 0) = 1 OR COALESCE(b.gonenoaddress, 0) = 1 OR COALESCE(b.dateexpiry < @day, 0) AS is_stopped,
           CASE WHEN COALESCE(b.cardnumber, '') = '' THEN 'a patron without a card number'
                WHEN OCTET_LENGTH(b.cardnumber) > 64 OR b.cardnumber REGEXP '[|\r\n]' THEN 'a card number that no message carries'
                ELSE '' END AS wrong
      FROM borrowers b LEFT JOIN categories c ON c.categorycode = b.categorycode
),
things AS (
    SELECT i.itemnumber, i.biblionumber, i.barcode, i.itype, i.homebranch, b.title,
           CASE WHEN COALESCE(i.barcode, '') = '' THEN 'an item without a barcode'
                WHEN OCTET_LENGTH(i.barcode) > 64 OR i.barcode REGEXP '[|\r\n]' THEN 'a barcode that no message carries'
                ELSE '' END AS wrong
      FROM items i LEFT JOIN biblio b ON b.biblionumber = i.biblionumber
),
patron_texts AS (
    SELECT p.*, REGEXP_REPLACE(p.name, '[|\r\n]+', ' ') AS clean, own.sip2 AS own, rest.sip2 AS rest
      FROM people p
      LEFT JOIN maps own ON own.kind = 'class' AND own.here = p.class
      LEFT JOIN maps rest ON rest.kind = 'class' AND rest.here = '*'
),
patron_rows AS (
    SELECT borrowernumber AS place, card AS id, IF(OCTET_LENGTH(clean) > 1024, LEFT(clean, 256), clean) AS name,
           IF(COALESCE(own, rest) = '=', class, COALESCE(own, rest)) AS class, IF(is_debarred OR is_stopped, 'Y', 'N') AS blocked,
           CASE WHEN wrong <> '' THEN wrong
                WHEN COALESCE(own, rest) IS NULL THEN CONCAT('the class ', class, ' is not in the maps') ELSE '' END AS left_out,
           CONCAT_WS('; ', IF(BINARY clean <> BINARY name, 'name: | and line ends became a blank', NULL),
                IF(OCTET_LENGTH(clean) > 1024, 'name: cut', NULL)) AS cleaned
      FROM patron_texts
),
item_texts AS (
    SELECT t.*, REGEXP_REPLACE(COALESCE(t.title, ''), '[|\r\n]+', ' ') AS clean,
           REGEXP_REPLACE(COALESCE(t.homebranch, ''), '[|\r\n]+', ' ') AS clean_place, own.sip2 AS own, rest.sip2 AS rest
      FROM things t
      LEFT JOIN maps own ON own.kind = 'media' AND own.here = t.itype
      LEFT JOIN maps rest ON rest.kind = 'media' AND rest.here = '*'
),
item_rows AS (
    SELECT itemnumber AS place, barcode AS id, IF(OCTET_LENGTH(clean) > 1024, LEFT(clean, 256), clean) AS title,
           COALESCE(own, rest) AS media, clean_place AS location, '' AS properties,
           CASE WHEN wrong <> '' THEN wrong
                WHEN COALESCE(own, rest) IS NULL THEN CONCAT('the item type ', COALESCE(itype, 'NULL'), ' is not in the maps') ELSE '' END AS left_out,
           CONCAT_WS('; ', IF(BINARY clean <> BINARY COALESCE(title, ''), 'title: | and line ends became a blank', NULL),
                IF(OCTET_LENGTH(clean) > 1024, 'title: cut', NULL),
                IF(own IS NULL, CONCAT('media: item type ', COALESCE(itype, 'NULL'), ' by the line *'), NULL)) AS cleaned
      FROM item_texts
),
loan_rows AS (
    SELECT s.issue_id AS place, p.card AS patron, t.barcode AS item, DATE_FORMAT(s.date_due, '%Y%m%d') AS due,
           COALESCE(s.renewals_count, 0) AS renewals,
           CASE WHEN p.wrong <> '' THEN p.wrong WHEN t.wrong <> '' THEN t.wrong
                WHEN s.date_due IS NULL THEN 'a loan without a due day' ELSE '' END AS left_out, '' AS cleaned
      FROM issues s JOIN people p ON p.borrowernumber = s.borrowernumber JOIN things t ON t.itemnumber = s.itemnumber
),
-- A fine grows while its line is UNRETURNED and its loan is open: the checkin charges the whole fee, so it is left out.
debts AS (
    SELECT a.accountlines_id AS place, p.card, p.wrong, a.debit_type_code, a.amount AS exact, a.amountoutstanding AS exact_rest,
           GREATEST(ROUND(a.amount, 2), ROUND(a.amountoutstanding, 2)) AS amount, GREATEST(ROUND(a.amountoutstanding, 2), 0) AS rest,
           COALESCE(a.status, '') = 'UNRETURNED' AND s.issue_id IS NOT NULL AS is_growing, own.sip2 AS own, other.sip2 AS other
      FROM accountlines a
      JOIN people p ON p.borrowernumber = a.borrowernumber
      LEFT JOIN issues s ON s.issue_id = a.issue_id
      LEFT JOIN maps own ON own.kind = 'fee' AND own.here = a.debit_type_code
      LEFT JOIN maps other ON other.kind = 'fee' AND other.here = '*'
     WHERE a.debit_type_code IS NOT NULL
),
debt_rows AS (
    SELECT place, CAST(place AS CHAR) AS id, card AS patron, COALESCE(own, other) AS type, CAST(amount AS DECIMAL(28, 2)) AS amount,
           CAST(amount - rest AS DECIMAL(28, 2)) AS paid, rest > 0 OR (amount <= 0 AND exact_rest > 0) AS is_open,
           CASE WHEN is_growing THEN CONCAT('a fine that grows while the item is out', IF(exact_rest < exact, ': a part of it is paid', ''))
                WHEN amount <= 0 THEN IF(exact > 0, 'less than a hundredth', 'an amount of 0')
                WHEN wrong <> '' THEN wrong
                WHEN COALESCE(own, other) IS NULL THEN CONCAT('the debit type ', debit_type_code, ' is not in the maps') ELSE '' END AS left_out,
           CONCAT_WS('; ', IF(exact <> amount OR exact_rest <> rest, CONCAT('rounded from ', exact, ', outstanding ', exact_rest), NULL),
                IF(own IS NULL, CONCAT('type: debit type ', debit_type_code, ' by the line *'), NULL)) AS cleaned
      FROM debts
),
fee_rows AS (SELECT place, id, patron, type, amount, paid, left_out, cleaned FROM debt_rows WHERE is_open),
closed_rows AS (SELECT place, id, patron, type, amount, left_out, cleaned FROM debt_rows WHERE NOT is_open AND left_out NOT IN ('an amount of 0')),
-- A queue: first who waits at the shelf (found), then by priority.
hold_rows AS (
    SELECT ROW_NUMBER() OVER (ORDER BY r.itemnumber, IF(r.found IS NULL, 1, 0), r.priority, r.reserve_id) AS place,
           r.reserve_id AS number, t.barcode AS item, p.card AS patron, REGEXP_REPLACE(COALESCE(r.branchcode, ''), '[|\r\n]+', ' ') AS pickup,
           CASE WHEN r.itemnumber IS NULL THEN 'a hold on a title'
                WHEN p.wrong <> '' THEN p.wrong WHEN t.wrong <> '' THEN t.wrong
                WHEN r.suspend = 1 THEN 'a hold that is suspended'
                WHEN s.issue_id IS NOT NULL THEN 'a hold of the patron who has the item'
                WHEN ROW_NUMBER() OVER (PARTITION BY r.itemnumber, r.borrowernumber, r.suspend
                        ORDER BY IF(r.found IS NULL, 1, 0), r.priority, r.reserve_id) > 1 THEN 'a second hold of one patron on one item'
                ELSE '' END AS left_out, '' AS cleaned
      FROM reserves r
      JOIN people p ON p.borrowernumber = r.borrowernumber
      LEFT JOIN things t ON t.itemnumber = r.itemnumber
      LEFT JOIN issues s ON s.itemnumber = r.itemnumber AND s.borrowernumber = r.borrowernumber
)
