-- What a load has to do: each row of which the server (now_*) has another state than the run (run_*). Where the server has what the
-- base had (base_*), the row is changed to what the run has. Where it has neither, somebody else changed it since: `differs` says so.
CREATE TEMPORARY TABLE plan (n INT AUTO_INCREMENT PRIMARY KEY, of_table VARCHAR(10), id VARCHAR(64), state_now TEXT, state_run TEXT, differs VARCHAR(100),
    KEY (of_table, id));

-- A fee's name says the line that made it, and that line's answer the item and the time.
UPDATE run_fees f JOIN run_answers a ON a.line = SUBSTRING_INDEX(SUBSTR(f.id, 2), '-', 1) SET f.item = NULLIF(a.item, ''), f.made_at = a.made_at WHERE f.id LIKE 'R%-%';

-- Patrons: the block.
INSERT INTO plan (of_table, id, state_now, state_run, differs)
SELECT 'patrons', r.id, n.blocked, r.blocked,
       CASE WHEN n.id IS NULL THEN 'the server has no such patron'
            WHEN NOT (n.blocked <=> b.blocked) THEN 'changed since the base'
            WHEN r.blocked = 'N' AND n.is_stopped THEN 'the card has ended, is lost or has no address, too' ELSE '' END
  FROM run_patrons r LEFT JOIN base_patrons b ON b.id = r.id LEFT JOIN now_patrons n ON n.id = r.id
 WHERE NOT (n.blocked <=> r.blocked) ORDER BY r.n;

-- Loans, by item.
INSERT INTO plan (of_table, id, state_now, state_run, differs)
SELECT 'loans', k.item, CONCAT_WS(' ', n.patron, n.due, n.renewals), CONCAT_WS(' ', r.patron, r.due, r.renewals),
       CASE WHEN NOT (CONCAT_WS(' ', n.patron, n.due, n.renewals) <=> CONCAT_WS(' ', b.patron, b.due, b.renewals)) THEN 'changed since the base'
            WHEN r.item IS NOT NULL AND i.id IS NULL THEN 'the server has no such item'
            WHEN r.item IS NOT NULL AND p.id IS NULL THEN 'the server has no such patron' ELSE '' END
  FROM (SELECT item FROM base_loans UNION SELECT item FROM run_loans UNION SELECT item FROM now_loans) k
  LEFT JOIN base_loans b ON b.item = k.item LEFT JOIN run_loans r ON r.item = k.item LEFT JOIN now_loans n ON n.item = k.item
  LEFT JOIN now_items i ON i.id = r.item LEFT JOIN now_patrons p ON p.id = r.patron
 WHERE NOT (CONCAT_WS(' ', n.patron, n.due, n.renewals) <=> CONCAT_WS(' ', r.patron, r.due, r.renewals)) ORDER BY r.n;

-- Fees, by number; those that the run made, by their names, which the notes of the server's lines keep.
INSERT INTO plan (of_table, id, state_now, state_run, differs)
SELECT 'fees', k.id, CONCAT_WS(' ', n.patron, n.type, n.amount, n.paid), CONCAT_WS(' ', r.patron, r.type, r.amount, r.paid),
       CASE WHEN r.id IS NULL THEN 'neither base nor run has it'
            WHEN r.id LIKE 'R%-%' AND b.id IS NULL THEN
                 CASE WHEN n.id IS NOT NULL THEN 'changed since it was loaded' WHEN p.id IS NULL THEN 'the server has no such patron'
                      WHEN d.here IS NULL THEN 'the maps have no debit type for it' ELSE '' END
            WHEN n.id IS NULL THEN 'the server has no such fee'
            WHEN NOT (CONCAT_WS(' ', n.patron, n.type, n.amount, n.paid) <=> CONCAT_WS(' ', b.patron, b.type, b.amount, b.paid)) THEN 'changed since the base'
            ELSE '' END
  FROM (SELECT id FROM run_fees UNION SELECT id FROM now_fees WHERE is_open) k
  LEFT JOIN run_fees r ON r.id = k.id LEFT JOIN base_fees b ON b.id = k.id LEFT JOIN now_fees n ON n.id = k.id
  LEFT JOIN now_patrons p ON p.id = r.patron LEFT JOIN fee_types d ON d.sip2 = r.type
 WHERE NOT (CONCAT_WS(' ', n.patron, n.type, n.amount, n.paid) <=> CONCAT_WS(' ', r.patron, r.type, r.amount, r.paid))
   AND NOT COALESCE(r.id LIKE 'R%-%' AND b.id IS NULL AND n.patron = r.patron AND n.amount = r.amount AND n.paid >= r.paid, FALSE)
 ORDER BY r.n;

-- Holds: the queue of each item.
CREATE TEMPORARY TABLE queues (KEY (item)) COLLATE utf8mb4_bin AS
SELECT 'base' AS whose, item, GROUP_CONCAT(patron, '/', pickup ORDER BY n SEPARATOR ' ') AS queue FROM base_holds GROUP BY item
 UNION ALL SELECT 'run', item, GROUP_CONCAT(patron, '/', pickup ORDER BY n SEPARATOR ' ') FROM run_holds GROUP BY item
 UNION ALL SELECT 'now', item, GROUP_CONCAT(patron, '/', pickup ORDER BY n SEPARATOR ' ') FROM now_holds GROUP BY item;
INSERT INTO plan (of_table, id, state_now, state_run, differs)
SELECT 'holds', k.item, COALESCE(n.queue, ''), COALESCE(r.queue, ''),
       CASE WHEN NOT (n.queue <=> b.queue) THEN 'changed since the base'
            WHEN r.item IS NOT NULL AND i.id IS NULL THEN 'the server has no such item'
            WHEN EXISTS (SELECT 1 FROM run_holds h LEFT JOIN now_patrons p ON p.id = h.patron WHERE h.item = k.item AND p.id IS NULL)
                 THEN 'the server has no such patron'
            WHEN EXISTS (SELECT 1 FROM run_holds h LEFT JOIN branches o ON o.branchcode = h.pickup
                          WHERE h.item = k.item AND h.pickup <> '' AND o.branchcode IS NULL) THEN 'the server has no such library' ELSE '' END
  FROM (SELECT DISTINCT item FROM queues) k
  LEFT JOIN queues b ON b.item = k.item AND b.whose = 'base' LEFT JOIN queues r ON r.item = k.item AND r.whose = 'run'
  LEFT JOIN queues n ON n.item = k.item AND n.whose = 'now' LEFT JOIN now_items i ON i.id = k.item
 WHERE NOT (n.queue <=> r.queue) ORDER BY k.item;

-- Loans of the base that the run ended: they are gone, or there was a checkin, after which the same patron took the item again.
CREATE TEMPORARY TABLE ends AS
SELECT n.number AS issue_id, i.number AS itemnumber, n.item, n.patron
  FROM now_loans n JOIN base_loans b ON b.item = n.item AND b.patron = n.patron AND b.due = n.due AND b.renewals = n.renewals
  JOIN now_items i ON i.id = n.item LEFT JOIN run_loans r ON r.item = n.item AND r.patron = n.patron
 WHERE r.item IS NULL OR EXISTS (SELECT 1 FROM run_answers a WHERE a.item = n.item AND a.kind = '10' AND a.is_ok = '1');

-- Fines that grew on such loans: the run's late fee takes the place of such a line; without one nothing more is owed.
CREATE TEMPORARY TABLE growing AS
SELECT a.accountlines_id AS number, a.amount, a.amount - a.amountoutstanding AS paid, e.item,
       (SELECT f.id FROM run_fees f JOIN plan l ON l.of_table = 'fees' AND l.id = f.id AND l.differs = '' AND l.state_now = ''
         WHERE f.type = '04' AND f.patron = e.patron AND f.item = e.item ORDER BY f.made_at, f.n LIMIT 1) AS fee
  FROM accountlines a JOIN ends e ON e.issue_id = a.issue_id WHERE a.status = 'UNRETURNED' AND a.debit_type_code IS NOT NULL;

-- Second holds of one patron on an item, which the export left out, end where the item's queue changes.
CREATE TEMPORARY TABLE second_holds AS
SELECT r.reserve_id, n.item, n.patron FROM plan q JOIN now_holds n ON n.item = q.id JOIN now_patrons p ON p.id = n.patron JOIN now_items i ON i.id = n.item
  JOIN reserves r ON r.itemnumber = i.number AND r.borrowernumber = p.number AND r.reserve_id <> n.number AND r.suspend = 0
 WHERE q.of_table = 'holds' AND q.differs = '';

SELECT CONCAT('plan:', IF(differs = '', 'change', 'differs'), ',', of_table, ',', id, ',"', REPLACE(state_now, '"', '""'), '","', REPLACE(state_run, '"', '""'), '",', differs)
  FROM plan ORDER BY n;
SELECT CONCAT('plan:ends,fines,', number, ',', ROUND(amount, 2), IF(paid > 0, CONCAT(' paid ', ROUND(paid, 2)), ''), ',', COALESCE(fee, ''), ',') FROM growing ORDER BY number;
SELECT CONCAT('plan:stays,fines,', a.accountlines_id, ',', ROUND(a.amount, 2), ',,it grew on a loan that the run renewed: decide by hand')
  FROM accountlines a JOIN now_loans n ON n.number = a.issue_id JOIN plan l ON l.of_table = 'loans' AND l.id = n.item
 WHERE a.status = 'UNRETURNED' AND a.debit_type_code IS NOT NULL AND a.issue_id NOT IN (SELECT issue_id FROM ends) ORDER BY 1;
SELECT CONCAT('plan:ends,holds,', reserve_id, ',', item, ' ', patron, ',,a second hold of one patron on one item') FROM second_holds ORDER BY reserve_id;
SELECT CONCAT('plan:not kept,items,', r.id, ',', b.properties, ',', r.properties, ',Koha has no place for properties')
  FROM run_items r JOIN base_items b ON b.id = r.id WHERE b.properties <> r.properties ORDER BY r.n;
SELECT CONCAT('differs:', COUNT(*)) FROM plan WHERE differs <> '';
