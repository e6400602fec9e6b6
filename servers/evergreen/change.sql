-- What the plan says, done. What differs is left as it is; where it isn't to be left (sip.keep), nothing is done.
DO $$ BEGIN
    IF current_setting('sip.keep') = '' AND EXISTS (SELECT 1 FROM plan WHERE differs <> '') THEN
        RAISE EXCEPTION 'rows have changed since they were shown';
    END IF;
END $$;
DELETE FROM plan WHERE differs <> '';
DELETE FROM ends WHERE item NOT IN (SELECT id FROM plan WHERE of_table = 'loans');
DELETE FROM growing WHERE circulation NOT IN (SELECT circulation FROM ends);

-- Loans that end.
UPDATE action.circulation c SET checkin_lib = c.circ_lib, stop_fines = 'CHECKIN', checkin_time = at.made_at, stop_fines_time = at.made_at
  FROM (SELECT e.circulation, COALESCE(min(a.made_at), now()) AS made_at FROM ends e LEFT JOIN run_answers a ON a.item = e.item AND a.kind = '10' AND a.is_ok = '1'
         GROUP BY e.circulation) at WHERE at.circulation = c.id;
UPDATE asset.copy SET status = 7 WHERE id IN (SELECT copy FROM ends);

-- Loans that go on with another day, and loans that begin, by the rules that the maps name.
UPDATE action.circulation c SET due_date = CASE WHEN to_char(c.due_date, 'YYYYMMDD') = r.due THEN c.due_date ELSE (r.due || ' 23:59:59')::timestamptz END,
       renewal_remaining = GREATEST(d.max_renewals - r.renewals, 0)
  FROM plan l JOIN now_loans n ON n.item = l.id JOIN run_loans r ON r.item = n.item AND r.patron = n.patron, config.rule_circ_duration d
 WHERE l.of_table = 'loans' AND c.id = n.number AND c.checkin_time IS NULL AND d.name = c.duration_rule;
INSERT INTO action.circulation (usr, target_copy, circ_lib, circ_staff, xact_start, due_date, renewal_remaining, duration_rule, recurring_fine_rule, max_fine_rule,
       grace_period, fine_interval, recurring_fine, max_fine, phone_renewal, desk_renewal, opac_renewal)
SELECT p.number, i.number, t.circ_lib, current_setting('sip.staff')::int,
       COALESCE((SELECT max(a.made_at) FROM run_answers a WHERE a.item = r.item AND a.kind = '12' AND a.is_ok = '1'), now()), (r.due || ' 23:59:59')::timestamptz,
       GREATEST(d.max_renewals - r.renewals, 0), d.name, f.name, m.name, f.grace_period, f.recurrence_interval, f.normal, m.amount, false, false, false
  FROM plan l JOIN run_loans r ON r.item = l.id JOIN now_patrons p ON p.id = r.patron JOIN now_items i ON i.id = r.item JOIN asset.copy t ON t.id = i.number
  JOIN config.rule_circ_duration d ON d.name = (SELECT sip2 FROM rules WHERE here = 'duration')
  JOIN config.rule_recurring_fine f ON f.name = (SELECT sip2 FROM rules WHERE here = 'fine')
  JOIN config.rule_max_fine m ON m.name = (SELECT sip2 FROM rules WHERE here = 'max')
 WHERE l.of_table = 'loans' AND NOT EXISTS (SELECT 1 FROM action.circulation c WHERE c.target_copy = i.number AND c.checkin_time IS NULL) ORDER BY r.n;
UPDATE asset.copy SET status = 1 WHERE id IN (SELECT i.number FROM plan l JOIN run_loans r ON r.item = l.id JOIN now_items i ON i.id = r.item WHERE l.of_table = 'loans');

-- Fines that grew: their bills are voided. The run's fee takes the loan's transaction, where that has no other bill, with what was
-- paid of the fine; where there is no fee, the fine ends with what is paid.
UPDATE money.billing SET voided = true, void_time = now(), note = concat_ws('; ', note, current_setting('sip.load'))
 WHERE xact IN (SELECT circulation FROM growing) AND btype = 1 AND NOT COALESCE(voided, false);
INSERT INTO money.billing (xact, amount, billing_type, btype, note)
SELECT g.circulation, g.paid, t.name, t.id, concat(current_setting('sip.load'), ' ended without a fee') FROM growing g JOIN config.billing_type t ON t.id = 1
 WHERE g.fee IS NULL AND g.paid > 0;

-- Fees that the run made: each a transaction of its own, but for the ones that take a loan's.
CREATE TEMPORARY TABLE made AS
SELECT f.id, f.n, f.amount, p.number AS usr, f.made_at, t.name, t.id AS btype, COALESCE(c.circ_lib, u.home_ou) AS lib,
       COALESCE(g.circulation, nextval('money.billable_xact_id_seq')) AS xact, g.circulation IS NOT NULL AS is_taken
  FROM plan l JOIN run_fees f ON f.id = l.id JOIN now_patrons p ON p.id = f.patron JOIN actor.usr u ON u.id = p.number JOIN fee_types d ON d.sip2 = f.type
  JOIN config.billing_type t ON t.id = (SELECT min(b.id) FROM config.billing_type b WHERE b.name = d.here)
  LEFT JOIN now_items i ON i.id = f.item LEFT JOIN asset.copy c ON c.id = i.number LEFT JOIN growing g ON g.fee = f.id AND g.owed = 0
 WHERE l.of_table = 'fees' AND l.state_now = '';
INSERT INTO money.grocery (id, usr, xact_start, billing_location, note)
SELECT xact, usr, COALESCE(made_at, now()), lib, concat(current_setting('sip.load'), ' ', id) FROM made WHERE NOT is_taken ORDER BY n;
INSERT INTO money.billing (xact, amount, billing_type, btype, note) SELECT xact, amount, name, btype, concat(current_setting('sip.load'), ' ', id) FROM made ORDER BY n;

-- Payments.
INSERT INTO money.cash_payment (xact, amount, amount_collected, accepting_usr, note)
SELECT x.xact, x.amount, x.amount, current_setting('sip.staff')::int, concat(current_setting('sip.load'), ' pays ', x.id)
  FROM (SELECT COALESCE(n.number, m.xact) AS xact, r.id, r.n, LEAST(r.paid - COALESCE(n.paid, 0), r.amount - COALESCE(n.paid, 0) - COALESCE(g.paid, 0)) AS amount
          FROM plan l JOIN run_fees r ON r.id = l.id LEFT JOIN now_fees n ON n.id = l.id LEFT JOIN made m ON m.id = l.id LEFT JOIN growing g ON g.fee = r.id
         WHERE l.of_table = 'fees' AND r.paid > COALESCE(n.paid, 0)) x
 WHERE x.amount > 0 ORDER BY x.n;

-- A transaction of which nothing is owed any more is finished, but for an open loan's.
CREATE TEMPORARY TABLE settled AS
SELECT x.id FROM money.billable_xact x
  LEFT JOIN action.circulation c ON c.id = x.id
 WHERE x.xact_finish IS NULL AND (c.id IS NULL OR c.checkin_time IS NOT NULL)
   AND (x.id IN (SELECT circulation FROM ends) OR x.id IN (SELECT xact FROM made) OR x.id IN (SELECT n.number FROM plan l JOIN now_fees n ON n.id = l.id WHERE l.of_table = 'fees'))
   AND COALESCE((SELECT sum(b.amount) FROM money.billing b WHERE b.xact = x.id AND NOT COALESCE(b.voided, false)), 0)
     <= COALESCE((SELECT sum(p.amount) FROM money.payment p WHERE p.xact = x.id AND NOT COALESCE(p.voided, false)), 0);
UPDATE money.billable_xact SET xact_finish = now() WHERE id IN (SELECT id FROM settled);

-- Blocks.
UPDATE actor.usr u SET barred = r.blocked = 'Y' FROM plan l JOIN run_patrons r ON r.id = l.id JOIN now_patrons n ON n.id = l.id WHERE l.of_table = 'patrons' AND u.id = n.number;

-- Holds: what left its queue is filled, where the patron has the item now, or cancelled; what came, or came anew, goes last.
UPDATE action.hold_request h SET fulfillment_time = now()
  FROM plan q JOIN now_holds n ON n.item = q.id JOIN run_loans l ON l.item = n.item AND l.patron = n.patron
 WHERE q.of_table = 'holds' AND h.id = n.number AND NOT EXISTS (SELECT 1 FROM run_holds r WHERE r.item = n.item AND r.patron = n.patron);
UPDATE action.hold_request h SET cancel_time = now()
  FROM plan q JOIN now_holds n ON n.item = q.id
 WHERE q.of_table = 'holds' AND h.id = n.number AND h.fulfillment_time IS NULL AND NOT EXISTS (SELECT 1 FROM run_holds r WHERE r.item = n.item AND r.patron = n.patron);
UPDATE action.hold_request SET cancel_time = now() WHERE id IN (SELECT hold FROM second_holds);
CREATE TEMPORARY TABLE late AS
SELECT h.n, h.item, h.patron, h.pickup, n.number FROM plan q JOIN run_holds h ON h.item = q.id LEFT JOIN now_holds n ON n.item = h.item AND n.patron = h.patron
 WHERE q.of_table = 'holds' AND (n.n IS NULL OR EXISTS (
       SELECT 1 FROM run_holds x LEFT JOIN now_holds y ON y.item = x.item AND y.patron = x.patron WHERE x.item = h.item AND x.n < h.n AND (y.n IS NULL OR y.n > n.n)));
UPDATE action.hold_request r SET pickup_lib = o.id
  FROM plan q JOIN run_holds h ON h.item = q.id JOIN now_holds n ON n.item = h.item AND n.patron = h.patron JOIN actor.org_unit o ON o.shortname = h.pickup
 WHERE q.of_table = 'holds' AND r.id = n.number;
UPDATE action.hold_request r SET request_time = now() + l.n * interval '1 microsecond', capture_time = NULL, shelf_time = NULL, current_copy = NULL, cut_in_line = false FROM late l WHERE r.id = l.number;
INSERT INTO action.hold_request (request_time, usr, requestor, request_lib, selection_ou, pickup_lib, hold_type, target)
SELECT now() + l.n * interval '1 microsecond', p.number, p.number, o.id, o.id, o.id, 'C', i.number
  FROM late l JOIN now_patrons p ON p.id = l.patron JOIN now_items i ON i.id = l.item JOIN actor.org_unit o ON o.shortname = l.pickup WHERE l.number IS NULL ORDER BY l.n;
