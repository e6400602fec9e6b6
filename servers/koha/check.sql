-- The server once more (now_*, read anew) against the run, wherever the plan had something to do. Where one differs, nothing of the load stays.
CREATE TEMPORARY TABLE undone AS
SELECT l.of_table, l.id FROM plan l LEFT JOIN run_patrons r ON r.id = l.id LEFT JOIN now_patrons n ON n.id = l.id
 WHERE l.of_table = 'patrons' AND NOT (n.blocked <=> r.blocked)
 UNION ALL
SELECT l.of_table, l.id FROM plan l LEFT JOIN run_loans r ON r.item = l.id LEFT JOIN now_loans n ON n.item = l.id
 WHERE l.of_table = 'loans' AND NOT (CONCAT_WS(' ', n.patron, n.due, n.renewals) <=> CONCAT_WS(' ', r.patron, r.due, r.renewals))
 UNION ALL
SELECT l.of_table, l.id FROM plan l JOIN run_fees r ON r.id = l.id LEFT JOIN now_fees n ON n.id = l.id LEFT JOIN growing g ON g.fee = l.id
 WHERE l.of_table = 'fees' AND NOT (CONCAT_WS(' ', n.patron, n.type, n.amount, n.paid) <=> CONCAT_WS(' ', r.patron, r.type, r.amount, CAST(LEAST(r.amount, r.paid + COALESCE(g.paid, 0)) AS DECIMAL(28, 2))))
 UNION ALL
SELECT l.of_table, l.id FROM plan l
  LEFT JOIN (SELECT item, GROUP_CONCAT(patron, '/', pickup ORDER BY n SEPARATOR ' ') AS queue FROM run_holds GROUP BY item) r ON r.item = l.id
  LEFT JOIN (SELECT item, GROUP_CONCAT(patron, '/', pickup ORDER BY n SEPARATOR ' ') AS queue FROM now_holds GROUP BY item) n ON n.item = l.id
 WHERE l.of_table = 'holds' AND NOT (n.queue <=> r.queue);
SELECT CONCAT('undone:', of_table, ',', id) FROM undone;
SELECT CONCAT('numbers:', r.id, ',', n.number) FROM run_fees r JOIN now_fees n ON n.id = r.id WHERE r.id LIKE 'R%-%' AND n.number <> n.id ORDER BY r.n;
DELIMITER //
BEGIN NOT ATOMIC
    IF EXISTS (SELECT 1 FROM undone) THEN
        ROLLBACK;
    ELSE
        COMMIT;
        SELECT 'committed:';
    END IF;
END//
DELIMITER ;
