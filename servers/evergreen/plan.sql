-- What a load has to do: each row of which the server (now_*) has another state than the run (run_*). Where the server has what the
-- base had (base_*), the row is changed to what the run has. Where it has neither, somebody else changed it since: differs says so.
CREATE TEMPORARY TABLE plan (n SERIAL PRIMARY KEY, of_table TEXT, id TEXT, state_now TEXT, state_run TEXT, differs TEXT);

-- A fee's name says the line that made it, and that line's answer the item and the time.
UPDATE run_fees f SET item = NULLIF(a.item, ''), made_at = a.made_at FROM run_answers a WHERE f.id LIKE 'R%-%' AND a.line = split_part(substr(f.id, 2), '-', 1);
ANALYZE base_patrons; ANALYZE run_patrons; ANALYZE now_patrons; ANALYZE base_items; ANALYZE run_items; ANALYZE now_items; ANALYZE base_loans; ANALYZE run_loans; ANALYZE now_loans;
ANALYZE base_fees; ANALYZE run_fees; ANALYZE now_fees; ANALYZE base_holds; ANALYZE run_holds; ANALYZE now_holds; ANALYZE run_answers;

-- Patrons: the block.
INSERT INTO plan (of_table, id, state_now, state_run, differs)
SELECT 'patrons', r.id, n.blocked, r.blocked,
       CASE WHEN n.id IS NULL THEN 'the server has no such patron'
            WHEN n.blocked IS DISTINCT FROM b.blocked THEN 'changed since the base'
            WHEN r.blocked = 'N' AND n.is_stopped THEN 'the card has ended, isn''t active or has a penalty, too' ELSE '' END
  FROM run_patrons r LEFT JOIN base_patrons b ON b.id = r.id LEFT JOIN now_patrons n ON n.id = r.id
 WHERE n.blocked IS DISTINCT FROM r.blocked ORDER BY r.n;

-- Loans, by item.
INSERT INTO plan (of_table, id, state_now, state_run, differs)
SELECT 'loans', k.item, concat_ws(' ', n.patron, n.due, n.renewals), concat_ws(' ', r.patron, r.due, r.renewals),
       CASE WHEN concat_ws(' ', n.patron, n.due, n.renewals) <> concat_ws(' ', b.patron, b.due, b.renewals) THEN 'changed since the base'
            WHEN r.item IS NOT NULL AND i.id IS NULL THEN 'the server has no such item'
            WHEN r.item IS NOT NULL AND p.id IS NULL THEN 'the server has no such patron' ELSE '' END
  FROM (SELECT item FROM base_loans UNION SELECT item FROM run_loans UNION SELECT item FROM now_loans) k
  LEFT JOIN base_loans b ON b.item = k.item LEFT JOIN run_loans r ON r.item = k.item LEFT JOIN now_loans n ON n.item = k.item
  LEFT JOIN now_items i ON i.id = r.item LEFT JOIN now_patrons p ON p.id = r.patron
 WHERE concat_ws(' ', n.patron, n.due, n.renewals) <> concat_ws(' ', r.patron, r.due, r.renewals) ORDER BY r.n;

-- Fees, by number; those that the run made, by their names, which the notes of the server's bills keep.
INSERT INTO plan (of_table, id, state_now, state_run, differs)
SELECT 'fees', k.id, concat_ws(' ', n.patron, n.type, n.amount, n.paid), concat_ws(' ', r.patron, r.type, r.amount, r.paid),
       CASE WHEN r.id IS NULL THEN 'neither base nor run has it'
            WHEN r.id LIKE 'R%-%' AND b.id IS NULL THEN
                 CASE WHEN n.id IS NOT NULL THEN 'changed since it was loaded' WHEN p.id IS NULL THEN 'the server has no such patron'
                      WHEN d.here IS NULL THEN 'the maps have no billing type for it'
                      WHEN NOT EXISTS (SELECT 1 FROM config.billing_type t WHERE t.name = d.here) THEN 'the server has no such billing type' ELSE '' END
            WHEN n.id IS NULL THEN 'the server has no such fee'
            WHEN concat_ws(' ', n.patron, n.type, n.amount, n.paid) <> concat_ws(' ', b.patron, b.type, b.amount, b.paid) THEN 'changed since the base'
            ELSE '' END
  FROM (SELECT id FROM run_fees UNION SELECT id FROM now_fees WHERE is_open) k
  LEFT JOIN run_fees r ON r.id = k.id LEFT JOIN base_fees b ON b.id = k.id LEFT JOIN now_fees n ON n.id = k.id
  LEFT JOIN now_patrons p ON p.id = r.patron LEFT JOIN fee_types d ON d.sip2 = r.type
 WHERE concat_ws(' ', n.patron, n.type, n.amount, n.paid) <> concat_ws(' ', r.patron, r.type, r.amount, r.paid)
   AND NOT COALESCE(r.id LIKE 'R%-%' AND b.id IS NULL AND n.patron = r.patron AND n.amount = r.amount AND n.paid >= r.paid, false)
 ORDER BY r.n;

-- Holds: the queue of each item.
CREATE TEMPORARY TABLE queues AS
SELECT 'base' AS whose, item, string_agg(concat(patron, '/', pickup), ' ' ORDER BY n) AS queue FROM base_holds GROUP BY item
 UNION ALL SELECT 'run', item, string_agg(concat(patron, '/', pickup), ' ' ORDER BY n) FROM run_holds GROUP BY item
 UNION ALL SELECT 'now', item, string_agg(concat(patron, '/', pickup), ' ' ORDER BY n) FROM now_holds GROUP BY item;
INSERT INTO plan (of_table, id, state_now, state_run, differs)
SELECT 'holds', k.item, COALESCE(n.queue, ''), COALESCE(r.queue, ''),
       CASE WHEN n.queue IS DISTINCT FROM b.queue THEN 'changed since the base'
            WHEN r.item IS NOT NULL AND i.id IS NULL THEN 'the server has no such item'
            WHEN EXISTS (SELECT 1 FROM run_holds h LEFT JOIN now_patrons p ON p.id = h.patron WHERE h.item = k.item AND p.id IS NULL)
                 THEN 'the server has no such patron'
            WHEN EXISTS (SELECT 1 FROM run_holds h LEFT JOIN actor.org_unit o ON o.shortname = h.pickup WHERE h.item = k.item AND o.id IS NULL)
                 THEN 'the server has no such library' ELSE '' END
  FROM (SELECT DISTINCT item FROM queues) k
  LEFT JOIN queues b ON b.item = k.item AND b.whose = 'base' LEFT JOIN queues r ON r.item = k.item AND r.whose = 'run'
  LEFT JOIN queues n ON n.item = k.item AND n.whose = 'now' LEFT JOIN now_items i ON i.id = k.item
 WHERE n.queue IS DISTINCT FROM r.queue ORDER BY k.item;

-- Loans of the base that the run ended: they are gone, or there was a checkin, after which the same patron took the item again.
CREATE TEMPORARY TABLE ends AS
SELECT n.number AS circulation, i.number AS copy, n.item, n.patron
  FROM now_loans n JOIN base_loans b ON b.item = n.item AND b.patron = n.patron AND b.due = n.due AND b.renewals = n.renewals
  JOIN now_items i ON i.id = n.item LEFT JOIN run_loans r ON r.item = n.item AND r.patron = n.patron
 WHERE r.item IS NULL OR EXISTS (SELECT 1 FROM run_answers a WHERE a.item = n.item AND a.kind = '10' AND a.is_ok = '1');

-- Fines that grew on such loans: the run's late fee takes their place; without one nothing more is owed. What was paid of them stays paid.
CREATE TEMPORARY TABLE growing AS
SELECT e.circulation, x.amount, GREATEST(COALESCE(p.paid, 0) - x.owed, 0) AS paid, x.owed, e.item,
       (SELECT f.id FROM run_fees f JOIN plan l ON l.of_table = 'fees' AND l.id = f.id AND l.differs = '' AND l.state_now = ''
         WHERE f.type = '04' AND f.patron = e.patron AND f.item = e.item ORDER BY f.made_at, f.n LIMIT 1) AS fee
  FROM ends e
  JOIN (SELECT xact, sum(amount) FILTER (WHERE btype = 1) AS amount, COALESCE(sum(amount) FILTER (WHERE btype <> 1), 0) AS owed
          FROM money.billing WHERE NOT COALESCE(voided, false) GROUP BY xact) x ON x.xact = e.circulation AND x.amount > 0
  LEFT JOIN (SELECT xact, sum(amount) AS paid FROM money.payment WHERE NOT COALESCE(voided, false) GROUP BY xact) p ON p.xact = e.circulation;
UPDATE plan SET differs = 'a part of the fine that grew is paid, and the loan has other bills'
 WHERE of_table = 'fees' AND id IN (SELECT fee FROM growing WHERE paid > 0 AND owed > 0);

-- Second holds of one patron on an item, which the export left out, end where the item's queue changes.
CREATE TEMPORARY TABLE second_holds AS
SELECT r.id AS hold, n.item, n.patron FROM plan q JOIN now_holds n ON n.item = q.id JOIN now_patrons p ON p.id = n.patron JOIN now_items i ON i.id = n.item
  JOIN action.hold_request r ON r.hold_type IN ('C', 'F', 'R') AND r.target = i.number AND r.usr = p.number AND r.id <> n.number AND NOT COALESCE(r.frozen, false)
 WHERE q.of_table = 'holds' AND q.differs = '' AND r.fulfillment_time IS NULL AND r.cancel_time IS NULL;

SELECT concat('plan:', CASE WHEN differs = '' THEN 'change' ELSE 'differs' END, ',', of_table, ',', id, ',"', replace(state_now, '"', '""'), '","', replace(state_run, '"', '""'), '",', differs)
  FROM plan ORDER BY n;
SELECT concat('plan:ends,fines,', circulation, ',', amount, CASE WHEN paid > 0 THEN concat(' paid ', paid) END, ',', fee, ',') FROM growing ORDER BY circulation;
SELECT concat('plan:stays,fines,', b.xact, ',', sum(b.amount), ',,it grew on a loan that the run renewed: decide by hand')
  FROM money.billing b JOIN now_loans n ON n.number = b.xact JOIN plan l ON l.of_table = 'loans' AND l.id = n.item
 WHERE b.btype = 1 AND NOT COALESCE(b.voided, false) AND b.xact NOT IN (SELECT circulation FROM ends) GROUP BY b.xact ORDER BY b.xact;
SELECT concat('plan:ends,holds,', hold, ',', item, ' ', patron, ',,a second hold of one patron on one item') FROM second_holds ORDER BY hold;
SELECT concat('plan:not kept,items,', r.id, ',', b.properties, ',', r.properties, ',Evergreen has no place for properties')
  FROM run_items r JOIN base_items b ON b.id = r.id WHERE b.properties <> r.properties ORDER BY r.n;
SELECT concat('differs:', count(*)) FROM plan WHERE differs <> '';
