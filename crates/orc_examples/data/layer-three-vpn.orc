# A layer 3 VPN over three provider edge routers, as one service.
#
# The data holds what an operator thinks in: profiles of access lines, and VPNs with their sites. A VPN is
# an entry of the list l3vpn. Its template says what a site is on the router that it names: a vrf with the
# VPN's route distinguisher, a unit of the access interface with the profile's MTU, and, where the site has
# a neighbor, a routing neighbor in that vrf.
orc 1

yang 30
module vpn {
  namespace "urn:example:vpn";
  prefix vpn;
  import orc { prefix orc; }
  container profiles {
    list profile {
      key name;
      leaf name { type string; }
      leaf mtu { type uint16 { range "576..9216"; } }
      leaf hold-time { type uint16; default 90; }
    }
  }
  container vpns {
    list l3vpn {
      key name;
      leaf name { type string; }
      leaf route-distinguisher { type string; mandatory true; }
      list site {
        key id;
        leaf id { type string; }
        leaf router { type leafref { path "/orc:device/orc:name"; } mandatory true; }
        leaf interface { type string; mandatory true; }
        leaf vlan { type uint16 { range "1..4094"; } mandatory true; }
        leaf profile { type leafref { path "/vpn:profiles/vpn:profile/vpn:name"; } mandatory true; }
        leaf neighbor { type string; }
        leaf neighbor-as { type uint32; }
      }
    }
  }
}
yang 11
module vrfs {
  namespace "urn:example:vrfs";
  prefix vrf;
  container vrfs {
    list vrf {
      key name;
      leaf name { type string; }
      leaf route-distinguisher { type string; mandatory true; }
    }
  }
}

yang 18
module interfaces {
  namespace "urn:example:interfaces";
  prefix if;
  import vrfs { prefix vrf; }
  container interfaces {
    list interface {
      key name;
      leaf name { type string; }
      leaf enabled { type boolean; }
      list unit {
        key vlan;
        leaf vlan { type uint16 { range "1..4094"; } }
        leaf mtu { type uint16; }
        leaf vrf { type leafref { path "/vrf:vrfs/vrf:vrf/vrf:name"; } }
      }
    }
  }
}

yang 14
module routing {
  namespace "urn:example:routing";
  prefix rt;
  import vrfs { prefix vrf; }
  container routing {
    list neighbor {
      key "vrf address";
      leaf vrf { type leafref { path "/vrf:vrfs/vrf:vrf/vrf:name"; } }
      leaf address { type string; }
      leaf peer-as { type uint32; mandatory true; }
      leaf hold-time { type uint16; }
    }
  }
}
datamodel vpn
devicetype edge vrfs interfaces routing
device pe1 edge
device pe2 edge
device pe3 edge

# What stands on the routers whatever services there are.
base pe1 /interfaces:interfaces/interface[ge-0/0/1]/enabled = true
base pe2 /interfaces:interfaces/interface[ge-0/0/1]/enabled = true
base pe3 /interfaces:interfaces/interface[ge-0/0/1]/enabled = true

data /vpn:profiles/profile[gold]/mtu = 9000
data /vpn:profiles/profile[gold]/hold-time = 30
data /vpn:profiles/profile[bronze]/mtu = 1500
data /vpn:profiles/profile[new]

template l3vpn /vpn:vpns/l3vpn 23
{"blocks": [
  {"for": "site",
   "device": "{router}",
   "config": {
     "vrfs:vrfs": {"vrf": [{
       "name": "{../name}",
       "route-distinguisher": "{../route-distinguisher}"}]},
     "interfaces:interfaces": {"interface": [{
       "name": "{interface}",
       "unit": [{
         "vlan": "{vlan}",
         "mtu": "{/vpn:profiles/profile[name=profile]/mtu}",
         "vrf": "{../name}"}]}]}},
   "blocks": [
     {"when": "neighbor",
      "device": "{router}",
      "config": {
        "routing:routing": {"neighbor": [{
          "vrf": "{../name}",
          "address": "{neighbor}",
          "peer-as": "{neighbor-as}",
          "hold-time": "{/vpn:profiles/profile[name=profile]/hold-time}"}]}}}]}
]}
script

# A VPN of three sites; two of them speak to a router of the customer.
call noc 1
create /vpn:vpns/l3vpn[acme] {"route-distinguisher": "65000:1", "site": [{"id": "berlin", "router": "pe1", "interface": "ge-0/0/1", "vlan": 101, "profile": "gold", "neighbor": "192.0.2.1", "neighbor-as": 64512}, {"id": "oslo", "router": "pe2", "interface": "ge-0/0/1", "vlan": 101, "profile": "bronze", "neighbor": "192.0.2.5", "neighbor-as": 64513}, {"id": "rome", "router": "pe3", "interface": "ge-0/0/1", "vlan": 101, "profile": "bronze"}]}
end
settle
show pe1
show pe2
show pe3

# A second one beside it, on the same access interface of the first router.
call noc 2
create /vpn:vpns/l3vpn[globex] {"route-distinguisher": "65000:2", "site": [{"id": "berlin", "router": "pe1", "interface": "ge-0/0/1", "vlan": 102, "profile": "bronze"}]}
end
settle
meta pe1 /interfaces:interfaces/interface[ge-0/0/1]

# One site changes: rome gets the profile gold. The other two routers stay as they are.
call noc 3
modify /vpn:vpns/l3vpn[acme] {"route-distinguisher": "65000:1", "site": [{"id": "berlin", "router": "pe1", "interface": "ge-0/0/1", "vlan": 101, "profile": "gold", "neighbor": "192.0.2.1", "neighbor-as": 64512}, {"id": "oslo", "router": "pe2", "interface": "ge-0/0/1", "vlan": 101, "profile": "bronze", "neighbor": "192.0.2.5", "neighbor-as": 64513}, {"id": "rome", "router": "pe3", "interface": "ge-0/0/1", "vlan": 101, "profile": "gold"}]}
end
settle
show pe1
show pe2
show pe3

# A body that can't be expanded: the profile has no MTU yet. Nothing changes.
call noc 4
create /vpn:vpns/l3vpn[initech] {"route-distinguisher": "65000:3", "site": [{"id": "oslo", "router": "pe2", "interface": "ge-0/0/1", "vlan": 103, "profile": "new"}]}
end
settle

# A body that isn't valid: there is no such profile.
call noc 5
create /vpn:vpns/l3vpn[initech] {"route-distinguisher": "65000:3", "site": [{"id": "oslo", "router": "pe2", "interface": "ge-0/0/1", "vlan": 103, "profile": "silver"}]}
end
settle

# Another VPN would give the unit of acme another vrf.
call noc 6
create /vpn:vpns/l3vpn[initech] {"route-distinguisher": "65000:3", "site": [{"id": "oslo", "router": "pe2", "interface": "ge-0/0/1", "vlan": 101, "profile": "bronze"}]}
end
settle

# A profile changes. A service takes that up where it is deployed again.
call noc 7
set /vpn:profiles/profile[gold]/mtu = 9100
end
settle
call noc 8
redeploy /vpn:vpns/l3vpn[acme]
end
settle
show pe1

# The first VPN goes. What the second one needs of pe1, and what the routers had of themselves, stays.
call noc 9
delete /vpn:vpns/l3vpn[acme]
end
settle
show pe1
show pe2
show pe3
data
history
