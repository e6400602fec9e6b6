-- What the plan says, done. What differs is left as it is; where it isn't to be left (@keep), nothing is done.
DELIMITER //
BEGIN NOT ATOMIC
    IF @keep = '' AND EXISTS (SELECT 1 FROM plan WHERE differs <> '') THEN
        SIGNAL SQLSTATE '45000' SET MESSAGE_TEXT = 'rows have changed since they were shown';
    END IF;
END//
DELIMITER ;
DELETE FROM plan WHERE differs <> '';
DELETE FROM ends WHERE item NOT IN (SELECT id FROM plan WHERE of_table = 'loans');
DELETE FROM growing WHERE item NOT IN (SELECT item FROM ends);

-- Loans that end. What the columns of the old table are, the database says.
SET @columns = (SELECT GROUP_CONCAT('`', a.column_name, '`') FROM information_schema.columns a
   JOIN information_schema.columns b ON b.table_schema = a.table_schema AND b.table_name = 'old_issues' AND b.column_name = a.column_name
  WHERE a.table_schema = DATABASE() AND a.table_name = 'issues');
EXECUTE IMMEDIATE CONCAT('INSERT INTO old_issues (', @columns, ') SELECT ', @columns, ' FROM issues WHERE issue_id IN (SELECT issue_id FROM ends)');
UPDATE old_issues o JOIN ends e ON e.issue_id = o.issue_id SET o.returndate = COALESCE(
   (SELECT MIN(a.made_at) FROM run_answers a WHERE a.item = e.item AND a.kind = '10' AND a.is_ok = '1'), NOW());
DELETE FROM issues WHERE issue_id IN (SELECT issue_id FROM ends);
UPDATE items SET onloan = NULL WHERE itemnumber IN (SELECT itemnumber FROM ends);

-- Loans that go on with another day, and loans that begin.
UPDATE issues s JOIN now_loans n ON n.number = s.issue_id JOIN plan l ON l.of_table = 'loans' AND l.id = n.item
  JOIN run_loans r ON r.item = n.item AND r.patron = n.patron
   SET s.date_due = IF(DATE_FORMAT(s.date_due, '%Y%m%d') = r.due, s.date_due, TIMESTAMP(STR_TO_DATE(r.due, '%Y%m%d'), '23:59:00')), s.renewals_count = r.renewals;
INSERT INTO issues (borrowernumber, itemnumber, date_due, branchcode, issuedate, renewals_count)
SELECT p.number, i.number, TIMESTAMP(STR_TO_DATE(r.due, '%Y%m%d'), '23:59:00'), t.homebranch,
       COALESCE((SELECT MAX(a.made_at) FROM run_answers a WHERE a.item = r.item AND a.kind = '12' AND a.is_ok = '1'), NOW()), r.renewals
  FROM plan l JOIN run_loans r ON r.item = l.id JOIN now_patrons p ON p.id = r.patron JOIN now_items i ON i.id = r.item JOIN items t ON t.itemnumber = i.number
  LEFT JOIN issues s ON s.itemnumber = i.number
 WHERE l.of_table = 'loans' AND s.issue_id IS NULL ORDER BY r.n;
UPDATE items t JOIN now_items i ON i.number = t.itemnumber JOIN plan l ON l.of_table = 'loans' AND l.id = i.id JOIN run_loans r ON r.item = l.id
   SET t.onloan = STR_TO_DATE(r.due, '%Y%m%d');

-- Fines that grew: the run's fee takes the line, with what was paid of it already; where there is none, the line ends with what is paid.
INSERT INTO account_offsets (debit_id, type, amount)
SELECT g.number, IF(COALESCE(f.amount, g.paid) < g.amount, 'OVERDUE_DECREASE', 'OVERDUE_INCREASE'), COALESCE(f.amount, g.paid) - g.amount
  FROM growing g LEFT JOIN run_fees f ON f.id = g.fee WHERE COALESCE(f.amount, g.paid) <> g.amount;
UPDATE accountlines a JOIN growing g ON g.number = a.accountlines_id LEFT JOIN run_fees f ON f.id = g.fee
   SET a.amount = COALESCE(f.amount, g.paid), a.amountoutstanding = GREATEST(COALESCE(f.amount, g.paid) - g.paid, 0), a.status = 'RETURNED',
       a.note = IF(f.id IS NULL, CONCAT(@load, ' ended without a fee'), CONCAT(@load, ' ', f.id));

-- Fees that the run made.
INSERT INTO accountlines (borrowernumber, itemnumber, date, amount, amountoutstanding, debit_type_code, status, description, note, interface)
SELECT p.number, i.number, COALESCE(f.made_at, NOW()), f.amount, f.amount, d.here, IF(f.type = '04', 'RETURNED', NULL), COALESCE(b.title, ''), CONCAT(@load, ' ', f.id), 'sip'
  FROM plan l JOIN run_fees f ON f.id = l.id JOIN now_patrons p ON p.id = f.patron JOIN fee_types d ON d.sip2 = f.type
  LEFT JOIN now_items i ON i.id = f.item LEFT JOIN items t ON t.itemnumber = i.number LEFT JOIN biblio b ON b.biblionumber = t.biblionumber
 WHERE l.of_table = 'fees' AND l.state_now = '' AND NOT EXISTS (SELECT 1 FROM growing g WHERE g.fee = f.id) ORDER BY f.n;
INSERT INTO account_offsets (debit_id, type, amount)
SELECT a.accountlines_id, 'CREATE', a.amount FROM plan l JOIN accountlines a ON a.note = CONCAT(@load, ' ', l.id)
 WHERE l.of_table = 'fees' AND l.state_now = '' AND NOT EXISTS (SELECT 1 FROM growing g WHERE g.fee = l.id);

-- Payments: a credit for each fee of which more is paid, and what it pays.
CREATE TEMPORARY TABLE payments AS
SELECT a.accountlines_id AS debit, a.borrowernumber, LEAST(r.paid - COALESCE(n.paid, 0), a.amountoutstanding) AS amount, r.id
  FROM plan l JOIN run_fees r ON r.id = l.id LEFT JOIN now_fees n ON n.id = l.id
  JOIN accountlines a ON a.accountlines_id = n.number OR (n.number IS NULL AND a.note = CONCAT(@load, ' ', l.id))
 WHERE l.of_table = 'fees' AND r.paid > COALESCE(n.paid, 0);
INSERT INTO accountlines (borrowernumber, date, amount, amountoutstanding, credit_type_code, description, note, interface)
SELECT borrowernumber, NOW(), -amount, 0, 'PAYMENT', '', CONCAT(@load, ' pays ', id), 'sip' FROM payments WHERE amount > 0 ORDER BY debit;
INSERT INTO account_offsets (credit_id, type, amount)
SELECT a.accountlines_id, 'CREATE', a.amount FROM payments p JOIN accountlines a ON a.note = CONCAT(@load, ' pays ', p.id);
INSERT INTO account_offsets (credit_id, debit_id, type, amount)
SELECT a.accountlines_id, p.debit, 'APPLY', -p.amount FROM payments p JOIN accountlines a ON a.note = CONCAT(@load, ' pays ', p.id);
UPDATE accountlines a JOIN payments p ON p.debit = a.accountlines_id SET a.amountoutstanding = a.amountoutstanding - p.amount;

-- Blocks.
CREATE TEMPORARY TABLE blocks AS
SELECT n.number, r.blocked FROM plan l JOIN run_patrons r ON r.id = l.id JOIN now_patrons n ON n.id = l.id WHERE l.of_table = 'patrons';
DELETE FROM borrower_debarments WHERE borrowernumber IN (SELECT number FROM blocks WHERE blocked = 'N');
INSERT INTO borrower_debarments (borrowernumber, type, comment) SELECT number, 'MANUAL', @load FROM blocks WHERE blocked = 'Y';
UPDATE borrowers b JOIN blocks k ON k.number = b.borrowernumber SET b.debarred = IF(k.blocked = 'Y', '9999-12-31', NULL);

-- Holds: what left its queue goes to the old ones, as filled where the patron has the item now; what came, or came anew, goes last.
CREATE TEMPORARY TABLE leaving AS
SELECT n.number AS reserve_id, EXISTS (SELECT 1 FROM run_loans l WHERE l.item = n.item AND l.patron = n.patron) AS is_filled
  FROM plan q JOIN now_holds n ON n.item = q.id LEFT JOIN run_holds h ON h.item = n.item AND h.patron = n.patron
 WHERE q.of_table = 'holds' AND h.n IS NULL
 UNION SELECT reserve_id, FALSE FROM second_holds;
SET @columns = (SELECT GROUP_CONCAT('`', a.column_name, '`') FROM information_schema.columns a
   JOIN information_schema.columns b ON b.table_schema = a.table_schema AND b.table_name = 'old_reserves' AND b.column_name = a.column_name
  WHERE a.table_schema = DATABASE() AND a.table_name = 'reserves');
EXECUTE IMMEDIATE CONCAT('INSERT INTO old_reserves (', @columns, ') SELECT ', @columns, ' FROM reserves WHERE reserve_id IN (SELECT reserve_id FROM leaving)');
UPDATE old_reserves o JOIN leaving l ON l.reserve_id = o.reserve_id
   SET o.found = IF(l.is_filled, 'F', NULL), o.cancellationdate = IF(l.is_filled, NULL, CURDATE()), o.priority = 0;
DELETE FROM reserves WHERE reserve_id IN (SELECT reserve_id FROM leaving);
UPDATE reserves r JOIN now_holds n ON n.number = r.reserve_id JOIN plan q ON q.of_table = 'holds' AND q.id = n.item
  JOIN run_holds h ON h.item = n.item AND h.patron = n.patron SET r.branchcode = NULLIF(h.pickup, '');
INSERT INTO reserves (borrowernumber, reservedate, biblionumber, itemnumber, branchcode, priority)
SELECT p.number, CURDATE(), t.biblionumber, i.number, NULLIF(h.pickup, ''), 30000
  FROM plan q JOIN run_holds h ON h.item = q.id JOIN now_patrons p ON p.id = h.patron JOIN now_items i ON i.id = h.item JOIN items t ON t.itemnumber = i.number
  LEFT JOIN now_holds n ON n.item = h.item AND n.patron = h.patron
 WHERE q.of_table = 'holds' AND n.n IS NULL ORDER BY h.n;
CREATE TEMPORARY TABLE late AS
SELECT r.reserve_id, h.n FROM plan q JOIN run_holds h ON h.item = q.id JOIN now_patrons p ON p.id = h.patron JOIN now_items i ON i.id = h.item
  LEFT JOIN now_holds n ON n.item = h.item AND n.patron = h.patron
  JOIN reserves r ON r.itemnumber = i.number AND r.borrowernumber = p.number AND (r.reserve_id = n.number OR (n.n IS NULL AND r.priority = 30000))
 WHERE q.of_table = 'holds' AND (n.n IS NULL OR EXISTS (
       SELECT 1 FROM run_holds x LEFT JOIN now_holds y ON y.item = x.item AND y.patron = x.patron WHERE x.item = h.item AND x.n < h.n AND (y.n IS NULL OR y.n > n.n)));
UPDATE reserves r JOIN late l ON l.reserve_id = r.reserve_id SET r.found = NULL;
CREATE TEMPORARY TABLE places AS
SELECT r.reserve_id, ROW_NUMBER() OVER (PARTITION BY r.biblionumber ORDER BY l.n IS NOT NULL, COALESCE(l.n, r.priority), r.reserve_id) AS priority
  FROM reserves r LEFT JOIN late l ON l.reserve_id = r.reserve_id
 WHERE r.found IS NULL AND r.biblionumber IN (SELECT t.biblionumber FROM plan q JOIN now_items i ON i.id = q.id JOIN items t ON t.itemnumber = i.number WHERE q.of_table = 'holds');
UPDATE reserves r JOIN places p ON p.reserve_id = r.reserve_id SET r.priority = p.priority;
