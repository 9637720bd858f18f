# Two modules: the types of an operator, and a model of its switches that imports them. A key is kept in one form too.

orc 1

yang 14
module op-types {
  namespace "urn:example:op-types";
  prefix ot;
  typedef vlan-id {
    type uint16 { range "1..4094"; }
  }
  typedef share {
    type decimal64 { fraction-digits 3; }
  }
  grouping named {
    leaf name { type string { length "1..32"; } }
    leaf active { type boolean; }
  }
}
yang 15
module vlan {
  namespace "urn:example:vlan";
  prefix v;
  import op-types { prefix ot; }
  container switch {
    list vlan {
      key id;
      leaf id { type ot:vlan-id; }
      uses ot:named;
      leaf share { type ot:share; }
    }
    leaf native { type leafref { path "/v:switch/v:vlan/v:id"; } }
  }
  rpc restart;
}

# A second type without the model of the switch takes nothing of it.
devicetype access op-types vlan
devicetype bare op-types
device sw0 access
device sw1 access
device probe bare

base sw0 /vlan:switch/vlan[001]/name = default
base sw0 /vlan:switch/native = +1

script

call anna 1
literal printers
write sw0 /vlan:switch/vlan[+0020]/name = Printers & scanners
write sw0 /vlan:switch/vlan[20]/share = 07.250
write sw1 /vlan:switch/vlan[20]/active = true
end
settle

call ben 1
literal phones
write sw0 /vlan:switch/vlan[0020]/share = 7.25
write sw0 /vlan:switch/vlan[030]
end
settle
show sw0
show sw1
show probe

call anna 2
delete printers
end
settle
show sw0
