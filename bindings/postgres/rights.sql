-- Who may read logs, and who may write them, behind schema.sql; each is a role that is there:
--     psql -v reader=READER -v writer=WRITER -f rights.sql DATABASE
-- A reader reads. A writer makes logs and appends to them, and can't change or take away a row that is there. Only the owner of the tables can:
-- to write a log anew, and to drop one. A reader of `faults` needs nothing else.

grant usage on schema segdag to :"reader", :"writer";
grant select on segdag.version, segdag.log, segdag.change to :"reader", :"writer";
grant insert (name, wants_standby), update (may_lock) on segdag.log to :"writer";
grant insert (log, generation, at, bytes, chain) on segdag.change to :"writer";
revoke all on function segdag.faults(text) from public;
grant execute on function segdag.faults(text) to :"reader", :"writer";
