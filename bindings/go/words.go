package faultyard

// #include <faultyard.h>
import "C"

import "fmt"

// Key is the part of a process's place by which an order names it.
type Key uint32

// The keys.
const (
	// Everyone is no part: every process, in a Scope. No order may be of it.
	Everyone   Key = C.FY_EVERYONE
	Process    Key = C.FY_PROCESS
	Machine    Key = C.FY_MACHINE
	Zone       Key = C.FY_ZONE
	DataHall   Key = C.FY_DATA_HALL
	DataCenter Key = C.FY_DATA_CENTER
)

// Kind is what a kill does to a process. A larger kind is harder.
type Kind uint32

// The kinds, from the mildest to the hardest.
const (
	// None is the kind that struck where nothing did.
	None Kind = C.FY_NONE
	// RebootProcess is: down; nothing on its disk is lost.
	RebootProcess Kind = C.FY_REBOOT_PROCESS
	// Reboot is: down; what its disk hasn't synced may be lost.
	Reboot Kind = C.FY_REBOOT
	// RebootAndDelete is: down, and its disk is emptied.
	RebootAndDelete Kind = C.FY_REBOOT_AND_DELETE
	// KillInstantly is: gone for good, and its disk is emptied.
	KillInstantly Kind = C.FY_KILL_INSTANTLY
)

// EmptiesDisk says whether the data of the process goes.
func (kind Kind) EmptiesDisk() bool {
	return kind == RebootAndDelete || kind == KillInstantly
}

// IsFinal says whether the process never comes back.
func (kind Kind) IsFinal() bool {
	return kind == KillInstantly
}

// OrderAct is what an order of a plan asks for.
type OrderAct uint32

// What it may be.
const (
	// OrderNone orders nothing.
	OrderNone OrderAct = C.FY_ORDER_NONE
	// OrderKill is a kill.
	OrderKill OrderAct = C.FY_ORDER_KILL
	// OrderClog is the act clog.
	OrderClog OrderAct = C.FY_ORDER_CLOG
	// OrderUnclog is the act unclog.
	OrderUnclog OrderAct = C.FY_ORDER_UNCLOG
)

// Plan is how a fault actor of a simulation draws its orders.
type Plan uint32

// The plans.
const (
	// PlanMixed has kills of each kind and clogs, of processes and of other places.
	PlanMixed Plan = C.FY_PLAN_MIXED
	// PlanAttrition destroys machines one after another.
	PlanAttrition Plan = C.FY_PLAN_ATTRITION
	// PlanSwizzle clogs processes one after another, and frees them in another order.
	PlanSwizzle Plan = C.FY_PLAN_SWIZZLE
	// PlanRolling strikes each process in turn, each round by a harder kind.
	PlanRolling Plan = C.FY_PLAN_ROLLING
)

// Rule is why the kind that was ordered is barred: the first rule that holds.
type Rule uint32

// The rules.
const (
	// NoRule bars nothing: the kind that was ordered struck.
	NoRule Rule = C.FY_NO_RULE
	// NoTarget is: no process that is left has the value.
	NoTarget Rule = C.FY_NO_TARGET
	// NoGrant is: no grant of the actor covers the process that is named.
	NoGrant Rule = C.FY_NO_GRANT
	// Protected is: the process that is named is protected.
	Protected Rule = C.FY_PROTECTED
	// TooManyDestroyed is: the destroyed processes would satisfy the policy that is named.
	TooManyDestroyed Rule = C.FY_TOO_MANY_DESTROYED
	// TooFewLeft is: the processes left wouldn't satisfy the policy that is named.
	TooFewLeft Rule = C.FY_TOO_FEW_LEFT
)

// Part is a part of a cluster file. A lower one is looked at first.
type Part uint32

// The parts.
const (
	// WholeFile is no one part: the file is too long, or no TOML document.
	WholeFile Part = C.FY_WHOLE_FILE
	// PartJournalLimit is journal_limit.
	PartJournalLimit Part = C.FY_PART_JOURNAL_LIMIT
	// PartPolicies is policies.
	PartPolicies Part = C.FY_PART_POLICIES
	// PartProcess is process.
	PartProcess Part = C.FY_PART_PROCESS
	// PartActor is actor.
	PartActor Part = C.FY_PART_ACTOR
	// PartProtect is protect.
	PartProtect Part = C.FY_PART_PROTECT
	// PartUnknown is a key at the top that is none of these.
	PartUnknown Part = C.FY_PART_UNKNOWN
)

var (
	keyWords  = []string{"", "processid", "machineid", "zoneid", "data_hall", "dcid"}
	kindWords = []string{"None", "RebootProcess", "Reboot", "RebootAndDelete", "KillInstantly"}
	orderActs = []string{"none", "kill", "clog", "unclog"}
	planWords = []string{"", "mixed", "attrition", "swizzle", "rolling"}
	ruleWords = []string{
		"NoRule", "NoTarget", "NoGrant", "Protected", "TooManyDestroyed", "TooFewLeft",
	}
	partWords = []string{
		"WholeFile", "JournalLimit", "Policies", "Process", "Actor", "Protect", "Unknown",
	}
)

// String is the word of scripts and audits.
func (key Key) String() string {
	return wordOf("Key", keyWords, uint32(key))
}

// String is the word of scripts and audits.
func (kind Kind) String() string {
	return wordOf("Kind", kindWords, uint32(kind))
}

// String is the name of the act in scripts and audits.
func (act OrderAct) String() string {
	return wordOf("OrderAct", orderActs, uint32(act))
}

// String is the word of simulate's --plan.
func (plan Plan) String() string {
	return wordOf("Plan", planWords, uint32(plan))
}

// String is the word of audits.
func (rule Rule) String() string {
	return wordOf("Rule", ruleWords, uint32(rule))
}

// String is the word of fault lines.
func (part Part) String() string {
	return wordOf("Part", partWords, uint32(part))
}

// wordOf is the word of a number, or tells the number where it has none.
func wordOf(of string, words []string, number uint32) string {
	if int64(number) >= int64(len(words)) || words[number] == "" {
		return fmt.Sprintf("%s(%d)", of, number)
	}
	return words[number]
}
