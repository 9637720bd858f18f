# A tour: two services share a port, a third one is refused, and the port's base is back when they are gone.
orc 1

# The declarations: one router, and what it has before any service.
device pe1 plain
base pe1 /if:port[ge-0/0/1]/mtu = 1500

# The script, step by step.
script

# Anna creates a service that writes two leaves of the port.
call anna 1
literal acme
write pe1 /if:port[ge-0/0/1]/mtu = 9000
write pe1 /if:port[ge-0/0/1]/description = Acme, Bern
end
settle
show pe1

# Ben's service wants the same mtu there, so they share it. His next one wants another one, and is refused.
call ben 1
literal backup
write pe1 /if:port[ge-0/0/1]/mtu = 9000
end
settle
call ben 2
literal voice
write pe1 /if:port[ge-0/0/1]/mtu = 1400
end
settle

# Without Anna's service her description goes, and the mtu stays for Ben's.
call anna 2
delete acme
end
settle
show pe1

# Sent again, a call is answered as before and not done twice.
call anna 2
delete acme
end
settle

# Without both the base is back.
call ben 3
delete backup
end
settle
show pe1
history
