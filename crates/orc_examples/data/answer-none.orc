# No answer: the controller was stopped while the call was being committed (or the run ended), so the call may be committed
# or not. What to do: `recover`, or run again over the same journal, and send the call again with its number: it is done
# now, or answered by its entry, and never done twice.
orc 1
device pe1 plain
script
# A stop in the fourth write or sync comes before the decision is written: the call isn't committed, and done when it is
# sent again.
stop 4 1
call noc 1
literal acme
write pe1 /if:port[ge-0/0/1]/mtu = 9000
end
settle
recover
reconcile
call noc 1
literal acme
write pe1 /if:port[ge-0/0/1]/mtu = 9000
end
settle
# A stop in the eighth comes with the last sync of the decision: the call is committed, and answered by its entry.
stop 8 1
call noc 2
delete acme
end
settle
recover
reconcile
call noc 2
delete acme
end
settle
show pe1
