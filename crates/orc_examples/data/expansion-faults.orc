# Why a service can't be expanded, a call for each word, and what goes before what: a line of a customer is a port of a
# switch, with the MTU of its profile and its VLAN, and where a server is given that relays DHCP the port has it too.
orc 1

# The data take any switch, any number of VLANs and servers, and each number below 65,536 as a VLAN.
yang 11
module access { namespace "urn:example:access"; prefix a;
  list profile { key name; leaf name { type string; } leaf mtu { type uint16; } }
  list line {
    key port;
    leaf port { type string; }
    leaf switch { type string; }
    leaf profile { type leafref { path "/a:profile/a:name"; } }
    leaf-list vlan { type uint16; }
    leaf-list server { type string; }
  }
}

# A port of a switch has one VLAN, of those that there are, and one server.
yang 9
module ports { namespace "urn:example:ports"; prefix p;
  list port {
    key name;
    leaf name { type string; }
    leaf mtu { type uint16; }
    leaf vlan { type uint16 { range "1..4094"; } }
    leaf relay { type string; }
  }
}
datamodel access
devicetype switch ports
device sw1 switch
device sw2 switch

data /access:profile[bare]
data /access:profile[gold]/mtu = 9000
data /access:profile[iron]/mtu = 1500

# The second block is done once for each server, which is its context: {.} is the server, and {../switch} a leaf of the
# line around it.
template line /access:line 10
{"blocks": [
  {"device": "{switch}",
   "config": {"ports:port": [{
     "name": "{port}",
     "mtu": "{/access:profile[name=profile]/mtu}",
     "vlan": "{vlan}"}]}},
  {"for": "server",
   "device": "{../switch}",
   "config": {"ports:port": [{"name": "{../port}", "relay": "{.}"}]}}
]}
script

# A line with all that it needs.
call net 1
create /access:line[ge1] {"switch": "sw1", "profile": "gold", "vlan": [10], "server": ["192.0.2.1"]}
end
settle
show sw1

# no-value: the profile has no MTU; and there is no switch.
call net 2
create /access:line[ge2] {"switch": "sw1", "profile": "bare", "vlan": [20]}
end
settle
call net 3
create /access:line[ge2] {"profile": "gold", "vlan": [20]}
end
settle

# many-values: braces want one text, and there are two VLANs.
call net 4
create /access:line[ge2] {"switch": "sw1", "profile": "gold", "vlan": [20, 30]}
end
settle

# unknown-device: no device has this name.
call net 5
create /access:line[ge2] {"switch": "sw3", "profile": "gold", "vlan": [20]}
end
settle

# bad-leaf: the switches have no such VLAN.
call net 6
create /access:line[ge2] {"switch": "sw1", "profile": "gold", "vlan": [4095]}
end
settle

# self-clash: the second block is done twice, and writes two servers at one leaf.
call net 7
create /access:line[ge2] {"switch": "sw1", "profile": "gold", "vlan": [20], "server": ["192.0.2.1", "192.0.2.2"]}
end
settle

# Two faults in one block: the device goes before what is written there.
call net 8
create /access:line[ge2] {"switch": "sw3", "profile": "bare", "vlan": [20, 30]}
end
settle

# Two services that can't be expanded: the first in the order of the actions is told.
call net 9
create /access:line[ge3] {"switch": "sw1", "profile": "gold", "vlan": [20, 30]}
create /access:line[ge2] {"switch": "sw1", "profile": "bare", "vlan": [20]}
end
settle

# The literal service clashes with the line ge1. Where the call has a line besides that can't be expanded, that is told.
call net 10
literal lab
write sw1 /ports:port[ge1]/mtu = 1400
end
settle
call net 11
literal lab
write sw1 /ports:port[ge1]/mtu = 1400
create /access:line[ge2] {"switch": "sw1", "profile": "bare", "vlan": [20]}
end
settle

# A profile goes, and then no line can name it; the data go before expansions too. One that a line has stays.
call net 12
unset /access:profile[iron]
end
settle
call net 13
create /access:line[ge2] {"switch": "sw1", "profile": "iron", "vlan": [20]}
end
settle
call net 14
create /access:line[ge2] {"switch": "sw3", "profile": "iron", "vlan": [20, 30]}
end
settle
call net 15
unset /access:profile[gold]
end
settle

# An action before it in the same call may take the ground away, and one after it may give it: a service is expanded
# on the data after all actions of its call.
call net 16
create /access:line[ge2] {"switch": "sw2", "profile": "bare", "vlan": [20]}
unset /access:profile[bare]
end
settle
call net 17
create /access:line[ge2] {"switch": "sw2", "profile": "bare", "vlan": [20]}
set /access:profile[bare]/mtu = 1500
end
settle
show sw1
show sw2

# The same words where a service is changed or deployed again. It stays as it was.
call net 18
modify /access:line[ge1] {"switch": "sw1", "profile": "gold", "vlan": [10, 20]}
end
settle
call net 19
unset /access:profile[bare]/mtu
redeploy /access:line[ge2]
end
settle
show sw1
show sw2
data
