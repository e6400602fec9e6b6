-- The server once more (now_*, read anew) against the run, wherever the plan had something to do. Where one differs, nothing of the load stays.
CREATE TEMPORARY TABLE undone AS
SELECT l.of_table, l.id FROM plan l LEFT JOIN run_patrons r ON r.id = l.id LEFT JOIN now_patrons n ON n.id = l.id
 WHERE l.of_table = 'patrons' AND n.blocked IS DISTINCT FROM r.blocked
 UNION ALL
SELECT l.of_table, l.id FROM plan l LEFT JOIN run_loans r ON r.item = l.id LEFT JOIN now_loans n ON n.item = l.id
 WHERE l.of_table = 'loans' AND concat_ws(' ', n.patron, n.due, n.renewals) <> concat_ws(' ', r.patron, r.due, r.renewals)
 UNION ALL
SELECT l.of_table, l.id FROM plan l JOIN run_fees r ON r.id = l.id LEFT JOIN now_fees n ON n.id = l.id LEFT JOIN growing g ON g.fee = l.id
 WHERE l.of_table = 'fees' AND concat_ws(' ', n.patron, n.type, n.amount, n.paid) <> concat_ws(' ', r.patron, r.type, r.amount, LEAST(r.amount, r.paid + COALESCE(g.paid, 0))::numeric(28, 2))
 UNION ALL
SELECT l.of_table, l.id FROM plan l
  LEFT JOIN (SELECT item, string_agg(concat(patron, '/', pickup), ' ' ORDER BY n) AS queue FROM run_holds GROUP BY item) r ON r.item = l.id
  LEFT JOIN (SELECT item, string_agg(concat(patron, '/', pickup), ' ' ORDER BY n) AS queue FROM now_holds GROUP BY item) n ON n.item = l.id
 WHERE l.of_table = 'holds' AND n.queue IS DISTINCT FROM r.queue;
SELECT concat('undone:', of_table, ',', id) FROM undone;
SELECT concat('numbers:', r.id, ',', n.number) FROM run_fees r JOIN now_fees n ON n.id = r.id WHERE r.id LIKE 'R%-%' AND n.number::text <> n.id ORDER BY r.n;
DO $$ BEGIN
    IF EXISTS (SELECT 1 FROM undone) THEN
        RAISE EXCEPTION 'the server did not come to what the run has';
    END IF;
END $$;
COMMIT;
SELECT 'committed:';
