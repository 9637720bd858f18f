# Committed: a call is done and stands in the journal, as the entry with this number. Sent again it gets the same answer,
# and nothing is done twice.
orc 1
device pe1 plain
script
call anna 1
literal acme
write pe1 /if:port[ge-0/0/1]/vlan = 20
end
settle
call anna 1
literal acme
write pe1 /if:port[ge-0/0/1]/vlan = 20
end
settle
# Numbers need not ascend, and each caller has its own.
call ben 2026
literal globex
write pe1 /if:port[ge-0/0/2]/vlan = 30
end
settle
call ben 7
delete globex
end
settle
history
