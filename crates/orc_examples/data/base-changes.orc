# The base of a device changes while a service lives on it: what the service writes stays on top, and goes with it alone.
orc 1
yang 5
module if { namespace "urn:example:if"; prefix if;
  list port { key name; leaf name { type string; }
    leaf mtu { type uint16; } leaf desc { type string; } }
  leaf hostname { type string; }
}
devicetype router if
device r1 router
base r1 /if:port[e0]/mtu = 1500
script
call al 1
literal uplink
write r1 /if:port[e0]/mtu = 9000
write r1 /if:port[e1]/mtu = 9000
end
settle
meta r1 /if:port[e0]
meta r1 /if:port[e1]
meta r1 /if:port[e0]/mtu

# Edits are done in order; a value is kept in its canonical form; what isn't there can be removed too.
call op 1
base r1 /if:port[e0]/mtu = 01400
base r1 /if:port[e1]/desc = spare
unbase r1 /if:hostname
end
settle
show r1

# An entry that goes from the base takes its leaves along, but not what a service writes there.
call op 2
unbase r1 /if:port[e0]
base r1 /if:hostname = edge
end
settle
show r1
meta r1 /if:port[e0]/mtu

call al 2
delete uplink
end
settle
show r1
history
