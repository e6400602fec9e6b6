-- The six tables of a base, as Evergreen has them. Each *_rows has a row for each row of Evergreen: its columns as sip_replay wants
-- them, left_out (why it is no row of the table, or '') and cleaned (what was changed in it, or '').
-- export prints them, load compares with them. This text comes after "WITH maps (kind, here, sip2) AS (..)", which is the file of maps;
-- sip.moment is the base's moment.
said AS (
    SELECT COALESCE(NULLIF(current_setting('sip.moment'), '')::timestamptz, now()) AS moment
),
people AS (
    SELECT u.id AS usr, k.barcode AS card, concat_ws(' ', NULLIF(u.first_given_name, ''), NULLIF(u.family_name, '')) AS name, g.name AS class, u.deleted,
           COALESCE(u.barred, false) AS is_barred,
           NOT COALESCE(u.active, true) OR NOT COALESCE(k.active, true) OR COALESCE(u.expire_date < said.moment, false) OR EXISTS (
               SELECT 1 FROM actor.usr_standing_penalty p JOIN config.standing_penalty s ON s.id = p.standing_penalty
                WHERE p.usr = u.id AND s.id >= 100 AND s.block_list LIKE '%CIRC%' AND (p.stop_date IS NULL OR p.stop_date > said.moment)) AS is_stopped,
           CASE WHEN u.deleted THEN 'a deleted patron'
                WHEN COALESCE(k.barcode, '') = '' THEN 'a patron without a card'
                WHEN octet_length(k.barcode) > 64 OR k.barcode ~ '[|\r\n]' THEN 'a card number that no message carries'
                ELSE '' END AS wrong
      FROM actor.usr u CROSS JOIN said JOIN permission.grp_tree g ON g.id = u.profile LEFT JOIN actor.card k ON k.id = u.card
),
things AS (
    SELECT c.id AS copy, c.barcode, c.circ_modifier, m.sip2_media_type, o.shortname, r.title, c.deleted,
           CASE WHEN c.deleted THEN 'a deleted item'
                WHEN c.barcode = '' THEN 'an item without a barcode'
                WHEN octet_length(c.barcode) > 64 OR c.barcode ~ '[|\r\n]' THEN 'a barcode that no message carries'
                ELSE '' END AS wrong
      FROM asset.copy c JOIN asset.call_number n ON n.id = c.call_number LEFT JOIN reporter.materialized_simple_record r ON r.id = n.record
      LEFT JOIN config.circ_modifier m ON m.code = c.circ_modifier LEFT JOIN actor.org_unit o ON o.id = c.circ_lib
),
patron_texts AS (
    SELECT p.*, regexp_replace(p.name, '[|\r\n]+', ' ', 'g') AS clean, COALESCE(own.sip2, other.sip2) AS named
      FROM people p
      LEFT JOIN maps own ON own.kind = 'class' AND own.here = p.class
      LEFT JOIN maps other ON other.kind = 'class' AND other.here = '*'
     WHERE NOT p.deleted
),
patron_rows AS (
    SELECT usr AS place, card AS id, CASE WHEN octet_length(clean) > 1024 THEN left(clean, 256) ELSE clean END AS name,
           CASE WHEN named = '=' THEN class ELSE named END AS class, CASE WHEN is_barred OR is_stopped THEN 'Y' ELSE 'N' END AS blocked,
           CASE WHEN wrong <> '' THEN wrong WHEN named IS NULL THEN concat('the group ', class, ' is not in the maps') ELSE '' END AS left_out,
           concat_ws('; ', CASE WHEN clean <> name THEN 'name: | and line ends became a blank' END,
                CASE WHEN octet_length(clean) > 1024 THEN 'name: cut' END) AS cleaned
      FROM patron_texts
),
item_texts AS (
    SELECT t.*, regexp_replace(COALESCE(t.title, ''), '[|\r\n]+', ' ', 'g') AS clean, regexp_replace(COALESCE(t.shortname, ''), '[|\r\n]+', ' ', 'g') AS clean_place,
           own.sip2 AS own, other.sip2 AS other, COALESCE(own.sip2, other.sip2) AS named
      FROM things t
      LEFT JOIN maps own ON own.kind = 'media' AND own.here = t.circ_modifier
      LEFT JOIN maps other ON other.kind = 'media' AND other.here = '*'
     WHERE NOT t.deleted
),
item_rows AS (
    SELECT copy AS place, barcode AS id, CASE WHEN octet_length(clean) > 1024 THEN left(clean, 256) ELSE clean END AS title,
           CASE WHEN named = '=' THEN COALESCE(sip2_media_type, '001') ELSE named END AS media, clean_place AS location, '' AS properties,
           CASE WHEN wrong <> '' THEN wrong WHEN named IS NULL THEN concat('the modifier ', circ_modifier, ' is not in the maps') ELSE '' END AS left_out,
           concat_ws('; ', CASE WHEN clean <> COALESCE(title, '') THEN 'title: | and line ends became a blank' END,
                CASE WHEN octet_length(clean) > 1024 THEN 'title: cut' END,
                CASE WHEN named = '=' AND sip2_media_type IS NULL THEN 'media: no modifier, so 001'
                     WHEN own IS NULL AND other <> '=' THEN concat('media: modifier ', circ_modifier, ' by the line *') END) AS cleaned
      FROM item_texts
),
-- Evergreen keeps how many renewals remain: what the rule of the loan allows, less that.
open_loans AS (
    SELECT c.*, d.max_renewals, row_number() OVER (PARTITION BY c.target_copy ORDER BY c.xact_start DESC, c.id DESC) AS nth
      FROM action.circulation c LEFT JOIN config.rule_circ_duration d ON d.name = c.duration_rule
     WHERE c.checkin_time IS NULL
),
loan_rows AS (
    SELECT s.id AS place, p.card AS patron, t.barcode AS item, to_char(s.due_date, 'YYYYMMDD') AS due,
           GREATEST(COALESCE(s.max_renewals, s.renewal_remaining) - s.renewal_remaining, 0)::text AS renewals,
           CASE WHEN p.wrong <> '' THEN p.wrong WHEN t.wrong <> '' THEN t.wrong
                WHEN s.nth > 1 THEN 'an older loan of an item that is lent again'
                WHEN s.due_date IS NULL THEN 'a loan without a due day' ELSE '' END AS left_out,
           CASE WHEN s.max_renewals IS NULL THEN 'renewals: no rule for the loan, so 0' ELSE '' END AS cleaned
      FROM open_loans s JOIN people p ON p.usr = s.usr JOIN things t ON t.copy = s.target_copy
),
-- An overdue fine grows while its loan is open: the checkin charges the whole fee, so it is left out. Other bills of such a loan aren't.
debts AS (
    SELECT x.id, x.usr, COALESCE(b.owed, 0) AS owed, COALESCE(b.growing, 0) AS growing, COALESCE(p.paid, 0) AS paid, b.kind
      FROM money.billable_xact x
      JOIN (SELECT b.xact, sum(b.amount) FILTER (WHERE c.id IS NULL OR b.btype <> 1) AS owed, sum(b.amount) FILTER (WHERE c.id IS NOT NULL AND b.btype = 1) AS growing,
                   (array_agg(b.billing_type ORDER BY b.id DESC) FILTER (WHERE c.id IS NULL OR b.btype <> 1))[1] AS kind
              FROM money.billing b LEFT JOIN action.circulation c ON c.id = b.xact AND c.checkin_time IS NULL
             WHERE NOT COALESCE(b.voided, false) GROUP BY b.xact) b ON b.xact = x.id
      LEFT JOIN (SELECT xact, sum(amount) AS paid FROM money.payment WHERE NOT COALESCE(voided, false) GROUP BY xact) p ON p.xact = x.id
),
debt_rows AS (
    SELECT d.id AS place, d.id::text AS id, p.card AS patron, COALESCE(own.sip2, other.sip2) AS type, d.owed::numeric(28, 2)::text AS amount,
           LEAST(d.paid, d.owed)::numeric(28, 2)::text AS paid, d.paid < d.owed AS is_open,
           CASE WHEN p.wrong <> '' THEN p.wrong
                WHEN COALESCE(own.sip2, other.sip2) IS NULL THEN concat('the billing type ', d.kind, ' is not in the maps') ELSE '' END AS left_out,
           CASE WHEN own.sip2 IS NULL THEN concat('type: billing type ', d.kind, ' by the line *') ELSE '' END AS cleaned
      FROM debts d JOIN people p ON p.usr = d.usr
      LEFT JOIN maps own ON own.kind = 'fee' AND own.here = d.kind
      LEFT JOIN maps other ON other.kind = 'fee' AND other.here = '*'
     WHERE d.owed > 0
    UNION ALL
    SELECT d.id, d.id::text, p.card, '', '', '', true,
           concat('a fine that grows while the item is out', CASE WHEN d.paid > d.owed THEN ': a part of it is paid' END), ''
      FROM debts d JOIN people p ON p.usr = d.usr WHERE d.growing > 0
),
fee_rows AS (SELECT place, id, patron, type, amount, paid, left_out, cleaned FROM debt_rows WHERE is_open),
closed_rows AS (SELECT place, id, patron, type, amount, left_out, cleaned FROM debt_rows WHERE NOT is_open),
-- A queue: first who waits at the shelf, then who cuts in line, then by the time of the request. A hold on a title that has its item is a hold on that item.
asked_for AS (
    SELECT h.*, CASE WHEN h.hold_type IN ('C', 'F', 'R') THEN h.target WHEN h.capture_time IS NOT NULL THEN h.current_copy END AS copy
      FROM action.hold_request h WHERE h.fulfillment_time IS NULL AND h.cancel_time IS NULL
),
hold_rows AS (
    SELECT row_number() OVER (ORDER BY h.copy, h.shelf_time IS NULL, NOT COALESCE(h.cut_in_line, false), h.request_time, h.id) AS place,
           h.id AS number, t.barcode AS item, p.card AS patron, regexp_replace(COALESCE(o.shortname, ''), '[|\r\n]+', ' ', 'g') AS pickup,
           CASE WHEN h.copy IS NULL THEN 'a hold on a title'
                WHEN p.wrong <> '' THEN p.wrong WHEN t.wrong <> '' THEN t.wrong
                WHEN COALESCE(h.frozen, false) THEN 'a hold that is suspended'
                WHEN EXISTS (SELECT 1 FROM action.circulation c WHERE c.target_copy = h.copy AND c.usr = h.usr AND c.checkin_time IS NULL) THEN 'a hold of the patron who has the item'
                WHEN row_number() OVER (PARTITION BY h.copy, h.usr, COALESCE(h.frozen, false) ORDER BY h.shelf_time IS NULL, NOT COALESCE(h.cut_in_line, false), h.request_time, h.id) > 1
                     THEN 'a second hold of one patron on one item'
                ELSE '' END AS left_out, '' AS cleaned
      FROM asked_for h JOIN people p ON p.usr = h.usr LEFT JOIN things t ON t.copy = h.copy LEFT JOIN actor.org_unit o ON o.id = h.pickup_lib
)
