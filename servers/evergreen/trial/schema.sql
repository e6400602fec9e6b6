-- The part of Evergreen's schema that export and load use, for servers/try alone: from memory of release 3.12.
CREATE SCHEMA permission; CREATE SCHEMA actor; CREATE SCHEMA asset; CREATE SCHEMA action; CREATE SCHEMA money; CREATE SCHEMA config; CREATE SCHEMA reporter;
CREATE TABLE permission.grp_tree (id serial PRIMARY KEY, name text UNIQUE NOT NULL);
CREATE TABLE actor.org_unit (id serial PRIMARY KEY, shortname text UNIQUE NOT NULL);
CREATE TABLE actor.usr (id serial PRIMARY KEY, card int, profile int NOT NULL REFERENCES permission.grp_tree, usrname text, first_given_name text NOT NULL, family_name text NOT NULL,
    home_ou int NOT NULL REFERENCES actor.org_unit, barred bool NOT NULL DEFAULT false, deleted bool NOT NULL DEFAULT false, active bool NOT NULL DEFAULT true,
    expire_date timestamptz NOT NULL DEFAULT '2030-01-01');
CREATE TABLE actor.card (id serial PRIMARY KEY, usr int NOT NULL REFERENCES actor.usr, barcode text UNIQUE NOT NULL, active bool NOT NULL DEFAULT true);
CREATE TABLE config.standing_penalty (id serial PRIMARY KEY, name text UNIQUE NOT NULL, label text NOT NULL, block_list text);
CREATE TABLE actor.usr_standing_penalty (id serial PRIMARY KEY, org_unit int NOT NULL, usr int NOT NULL REFERENCES actor.usr, standing_penalty int NOT NULL REFERENCES config.standing_penalty,
    set_date timestamptz DEFAULT now(), stop_date timestamptz);
CREATE TABLE config.circ_modifier (code text PRIMARY KEY, name text NOT NULL, sip2_media_type text NOT NULL);
CREATE TABLE config.rule_circ_duration (id serial PRIMARY KEY, name text UNIQUE NOT NULL, normal interval NOT NULL, max_renewals int NOT NULL);
CREATE TABLE config.rule_recurring_fine (id serial PRIMARY KEY, name text UNIQUE NOT NULL, normal numeric(6,2) NOT NULL, recurrence_interval interval NOT NULL, grace_period interval NOT NULL);
CREATE TABLE config.rule_max_fine (id serial PRIMARY KEY, name text UNIQUE NOT NULL, amount numeric(6,2) NOT NULL);
CREATE TABLE config.billing_type (id serial PRIMARY KEY, name text NOT NULL, owner int NOT NULL);
CREATE TABLE reporter.materialized_simple_record (id bigint PRIMARY KEY, title text);
CREATE TABLE asset.call_number (id bigserial PRIMARY KEY, record bigint NOT NULL, owning_lib int NOT NULL, label text NOT NULL);
CREATE TABLE asset.copy (id bigserial PRIMARY KEY, circ_lib int NOT NULL REFERENCES actor.org_unit, call_number bigint NOT NULL REFERENCES asset.call_number, status int NOT NULL DEFAULT 0,
    barcode text NOT NULL, circ_modifier text REFERENCES config.circ_modifier, deleted bool NOT NULL DEFAULT false);
CREATE UNIQUE INDEX copy_barcode_key ON asset.copy (barcode) WHERE deleted = false;
CREATE TABLE money.billable_xact (id bigserial PRIMARY KEY, usr int NOT NULL REFERENCES actor.usr, xact_start timestamptz NOT NULL DEFAULT now(), xact_finish timestamptz);
CREATE TABLE money.grocery (billing_location int NOT NULL, note text) INHERITS (money.billable_xact);
CREATE TABLE action.circulation (target_copy bigint NOT NULL, circ_lib int NOT NULL, circ_staff int NOT NULL, checkin_staff int, checkin_lib int, renewal_remaining int NOT NULL,
    grace_period interval NOT NULL, due_date timestamptz, stop_fines_time timestamptz, checkin_time timestamptz, duration interval, fine_interval interval NOT NULL DEFAULT '1 day',
    recurring_fine numeric(6,2), max_fine numeric(6,2), phone_renewal bool NOT NULL, desk_renewal bool NOT NULL, opac_renewal bool NOT NULL, duration_rule text NOT NULL,
    recurring_fine_rule text NOT NULL, max_fine_rule text NOT NULL, stop_fines text) INHERITS (money.billable_xact);
CREATE TABLE money.billing (id bigserial PRIMARY KEY, xact bigint NOT NULL, billing_ts timestamptz NOT NULL DEFAULT now(), voided bool NOT NULL DEFAULT false, void_time timestamptz,
    amount numeric(6,2) NOT NULL, billing_type text NOT NULL, btype int NOT NULL REFERENCES config.billing_type, note text);
CREATE TABLE money.payment (id bigserial PRIMARY KEY, xact bigint NOT NULL, payment_ts timestamptz NOT NULL DEFAULT now(), voided bool NOT NULL DEFAULT false, amount numeric(6,2) NOT NULL, note text);
CREATE TABLE money.cash_payment (amount_collected numeric(6,2) NOT NULL, accepting_usr int NOT NULL) INHERITS (money.payment);
CREATE TABLE action.hold_request (id serial PRIMARY KEY, request_time timestamptz NOT NULL DEFAULT now(), capture_time timestamptz, fulfillment_time timestamptz, cancel_time timestamptz,
    shelf_time timestamptz, current_copy bigint, target bigint NOT NULL, usr int NOT NULL REFERENCES actor.usr, requestor int NOT NULL REFERENCES actor.usr, request_lib int NOT NULL,
    selection_ou int NOT NULL, pickup_lib int NOT NULL REFERENCES actor.org_unit, hold_type text NOT NULL, frozen bool NOT NULL DEFAULT false, cut_in_line bool);
