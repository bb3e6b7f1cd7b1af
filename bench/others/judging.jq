# The fifteen rules of bench/judging.rules by hand: jq -r -f judging.jq DELIVERY prints the report. null is undecided. What
# the rules take for granted of a delivery is taken for granted here, too.
def negated: if . == null then null else not end;
def both($left; $right):
  if $left == false or $right == false then false elif $left and $right then true else null end;
def either($left; $right):
  if $left or $right then true elif $left == false and $right == false then false else null end;
def implies($left; $right): either($left | negated; $right);
def for_all: if any(.[]; . == false) then false elif any(.[]; . == null) then null else true end;
def exists: if any(.[]; . == true) then true elif any(.[]; . == null) then null else false end;
def at_least($least): if . == null then null else . >= $least end;
def at_most($most): if . == null then null else . <= $most end;
def holders($feature): [.objects[] | .id as $id | (.features[$feature] // [])[] | {key: ., value: $id}] | from_entries;

(.objects | map({key: .id, value: .}) | from_entries) as $by_id
| holders("omvat") as $duct
| holders("leidingen") as $net
| .objects as $objects
| def targets($feature): [(.features[$feature] // [])[] | $by_id[.]];
  def depth: .features.diepte;
  def is($classes): .class as $class | any($classes[]; . == $class);
  # what a rule comes to: its lines, and how many objects it fails for and leaves undecided
  def rule($name; $classes; verdict):
    [$objects[] | select(is($classes)) | {id, verdict: verdict}] as $judged
    | ($judged | map(select(.verdict == false)) | length) as $fails
    | ($judged | map(select(.verdict == null)) | length) as $undecided
    | ($judged | length) as $checked
    | {
        $fails, $undecided,
        lines: [
          ($judged[] | select(.verdict != true) | "\(if .verdict == null then "undecided" else "fail" end) \($name) \(.id)"),
          "rule \($name) checked \($checked) holds \($checked - $fails - $undecided) fails \($fails) undecided \($undecided)"
        ]
      };
  ["Elektriciteitskabel", "Waterleiding", "Mantelbuis"] as $lines
  | [
      rule("deepEnough"; $lines; depth | at_least(600)),
      rule("notTooDeep"; $lines; depth | at_most(5000)),
      rule("identified"; $lines; (.features.identificatie | length) > 0),
      rule("inNetworkOrDuct"; $lines; .id as $id | ($net | has($id)) or ($duct | has($id)) or .class == "Mantelbuis"),
      rule("shallowInDuct"; $lines; .id as $id | implies(depth | at_most(799); $duct | has($id))),
      rule("withinDuct"; $lines;
        depth as $depth
        | ($duct[.id] // null) as $holder
        | (if $holder == null then null else $by_id[$holder] | depth end) as $duct_depth
        | if $duct_depth == null then true else $depth | at_least($duct_depth - 100) end),
      rule("knownVoltage"; ["Elektriciteitskabel"]; .features.spanning | both(. > 0; . <= 380000)),
      rule("highVoltageDeep"; ["Elektriciteitskabel"]; implies(.features.spanning > 1000; depth | at_least(1000))),
      rule("width"; ["Waterleiding"]; .features.diameter | both(. >= 20; . <= 2000)),
      rule("holdsSomething"; ["Mantelbuis"]; (targets("omvat") | length) > 0),
      rule("allDeep"; ["Mantelbuis"]; [targets("omvat")[] | depth | at_least(600)] | for_all),
      rule("noDuctInside"; ["Mantelbuis"]; any(targets("omvat")[]; .class == "Mantelbuis") | not),
      rule("oneDepth"; ["Mantelbuis"]; ([targets("omvat")[] | depth] | unique | length) <= 1),
      rule("themeOfPipes"; ["Utiliteitsnet"];
        implies(.features.thema == "water"; [targets("leidingen")[] | .class == "Waterleiding"] | for_all)),
      rule("someDeep"; ["Utiliteitsnet"]; [targets("leidingen")[] | depth | at_least(701)] | exists)
    ]
  | (.[].lines[]), "total fails \(map(.fails) | add) undecided \(map(.undecided) | add)"
