package conform

import (
	"encoding/json"
	"fmt"
	"net/http"
	"strings"
)

const sectionCatalog = "Catalog Management"

var catalogCases = scenario{
	cases: []Case{
		{"catalog-status", sectionCatalog, Must, "200 and an object with the list services"},
		{"catalog-services", sectionCatalog, Must,
			"each service has the strings id, name and description, the boolean bindable, and a plan"},
		{"catalog-plans", sectionCatalog, Must, "each plan has the strings id, name and description"},
		{"catalog-ids-unique", sectionCatalog, Must, "no two services have one id, and no two plans"},
		{"catalog-names-unique", sectionCatalog, Must, "no two services have one name, and no two plans of a service"},
		{"catalog-flags", sectionCatalog, Must, "each flag is a boolean, and each other optional field has its type"},
		{"catalog-requires", sectionCatalog, Should,
			"each permission in requires is syslog_drain, route_forwarding or volume_mount"},
		{"catalog-names-for-cli", sectionCatalog, Should,
			"names have only letters, digits, periods, hyphens and underscores"},
	},
	run: func(r *Runner) {
		x := r.fetched
		problem := x.want(200)
		services, is := listOf(x.object["services"])
		if problem == "" && !is {
			problem = "the body has no list services"
		}
		r.judge("catalog-status", x, problem)
		if problem != "" {
			r.because = "the catalogue can't be read"
			return
		}
		for name, check := range map[string]func([]object) string{
			"catalog-services": checkServices, "catalog-plans": checkPlans,
			"catalog-ids-unique":   checkUnique("id", "two plans", false),
			"catalog-names-unique": checkUnique("name", "two plans of a service", true),
			"catalog-flags":        checkFlags, "catalog-requires": checkRequires, "catalog-names-for-cli": checkForCLI,
		} {
			r.judge(name, x, check(services))
		}
	},
}

type object = map[string]any

// listOf returns a value that is a list of objects.
func listOf(value any) (objects []object, is bool) {
	list, is := value.([]any)
	for _, element := range list {
		one, isObject := element.(object)
		if !isObject {
			return nil, false
		}
		objects = append(objects, one)
	}
	return objects, is
}

// plansOf returns the plans of a service, or none if they are no list of objects.
func plansOf(service object) []object {
	plans, _ := listOf(service["plans"])
	return plans
}

// textIn returns a member that is a string, or "".
func textIn(from object, member string) string {
	text, _ := from[member].(string)
	return text
}

func checkServices(services []object) string {
	for at, service := range services {
		if missing := missingText(service); missing != "" {
			return fmt.Sprintf("service %d has no %s that is a non-empty string", at+1, missing)
		}
		if _, is := service["bindable"].(bool); !is {
			return fmt.Sprintf("service %d has no boolean bindable", at+1)
		}
		if len(plansOf(service)) == 0 {
			return fmt.Sprintf("service %d has no plan", at+1)
		}
	}
	return ""
}

func checkPlans(services []object) string {
	for _, service := range services {
		for at, object := range plansOf(service) {
			if missing := missingText(object); missing != "" {
				return fmt.Sprintf("plan %d of service %q has no %s that is a non-empty string",
					at+1, textIn(service, "name"), missing)
			}
		}
	}
	return ""
}

func missingText(of object) string {
	for _, member := range []string{"id", "name", "description"} {
		if textIn(of, member) == "" {
			return member
		}
	}
	return ""
}

// checkUnique returns a check with a problem if a member stands twice: in two services, or in two plans, perhaps of one
// service.
func checkUnique(member, plans string, isOfService bool) func([]object) string {
	return func(services []object) string {
		ofServices, ofPlans := stringSet{}, stringSet{}
		for _, service := range services {
			if ofServices.again(service[member]) {
				return fmt.Sprintf("two services have the %s %v", member, service[member])
			}
			if isOfService {
				ofPlans = stringSet{}
			}
			for _, plan := range plansOf(service) {
				if ofPlans.again(plan[member]) {
					return fmt.Sprintf("%s have the %s %v", plans, member, plan[member])
				}
			}
		}
		return ""
	}
}

// stringSet are the strings that have been met.
type stringSet map[string]bool

// again reports whether a value is a string that has been met before.
func (s stringSet) again(value any) bool {
	text, is := value.(string)
	before := s[text]
	s[text] = true
	return is && before
}

func checkFlags(services []object) string {
	flags := []string{
		"bindable", "plan_updateable", "instances_retrievable", "bindings_retrievable", "allow_context_updates",
	}
	for _, service := range services {
		problem := wrongType(service, flags)
		if value, has := service["tags"]; has && problem == "" && !isTexts(value) {
			problem = "tags is no list of strings"
		}
		if value, has := service["requires"]; has && problem == "" && !isTexts(value) {
			problem = "requires is no list of strings"
		}
		for _, plan := range plansOf(service) {
			if problem == "" {
				problem = wrongType(plan, []string{"free", "bindable", "plan_updateable", "binding_rotatable"})
			}
			if value, has := plan["maximum_polling_duration"]; has && problem == "" && !isWhole(value) {
				problem = "maximum_polling_duration is no whole number"
			}
			if value, has := plan[maintenanceMember]; has && problem == "" && versionIn(value) == "" {
				problem = "maintenance_info is no object with the string version"
			}
		}
		if problem != "" {
			return fmt.Sprintf("service %q: %s", textIn(service, "name"), problem)
		}
	}
	return ""
}

// versionIn returns the version that a maintenance_info has, or "".
func versionIn(maintenance any) string {
	of, _ := maintenance.(object)
	return textIn(of, "version")
}

// wrongType returns a problem if one of these members is present and isn't a boolean, or metadata isn't an object.
func wrongType(of object, flags []string) string {
	for _, flag := range flags {
		if value, has := of[flag]; has {
			if _, is := value.(bool); !is {
				return flag + " is no boolean"
			}
		}
	}
	if value, has := of["metadata"]; has {
		if _, is := value.(object); !is {
			return "metadata is no object"
		}
	}
	return ""
}

func isTexts(value any) bool {
	list, is := value.([]any)
	for _, element := range list {
		if _, isText := element.(string); !isText {
			return false
		}
	}
	return is
}

func isWhole(value any) bool {
	number, is := value.(float64)
	return is && number == float64(int64(number))
}

// checkRequires returns a problem if a service requires a permission that the standard doesn't have.
func checkRequires(services []object) string {
	for _, service := range services {
		list, _ := service["requires"].([]any)
		for _, permission := range list {
			switch permission {
			case "syslog_drain", "route_forwarding", "volume_mount":
			default:
				return fmt.Sprintf("service %q requires %v", textIn(service, "name"), permission)
			}
		}
	}
	return ""
}

func checkForCLI(services []object) string {
	for _, service := range services {
		for _, named := range append([]object{service}, plansOf(service)...) {
			name := textIn(named, "name")
			if strings.Trim(strings.ToLower(name), "abcdefghijklmnopqrstuvwxyz0123456789.-_") != "" {
				return fmt.Sprintf("the name %q has another character", name)
			}
		}
	}
	return ""
}

// A Target is the plan that is ordered.
type Target struct {
	Pair
	ServiceName, PlanName string
	Bindable              bool
	InstancesRetrievable  bool
	BindingsRetrievable   bool
	Updateable            bool        // plan_updateable: an instance may be updated to another plan of the service
	Version               string      // of its maintenance_info, or empty for none
	Catalogue             []byte      // the body of the answer
	CatalogueHeader       http.Header // its header but the request's identity, if it could be read
	HasCatalogue          bool        // the catalogue could be read
	NumbersUpdates        bool        // the broker orders Updates by their numbers (x-osb-updates)
	Plans                 []PlanVersion

	other Pair // another plan, or an empty one
}

// A PlanVersion is a plan of the target's service, with the version of its maintenance_info, or an empty one.
type PlanVersion struct{ Plan, Version string }

// sibling is another plan of the service, or an empty pair.
func (t Target) sibling() Pair {
	if t.other.Service == t.Service {
		return t.other
	}
	return Pair{}
}

// choose chooses the plan to order. If the catalogue has no plan at all and none is given, the target stays empty.
func (r *Runner) choose() error {
	services, _ := listOf(r.fetched.object["services"])
	all := []Target{}
	for _, service := range services {
		all = append(all, targetsOf(service)...)
	}
	if len(all) == 0 {
		r.target = Target{Pair: Pair{r.options.Service, r.options.Plan}}
		r.target.ServiceName, r.target.PlanName = r.options.Service, r.options.Plan
		return nil
	}
	at := r.find(all)
	if at < 0 {
		return fmt.Errorf("%w: service %q, plan %q", ErrNoPlan, r.options.Service, r.options.Plan)
	}
	r.target = all[at]
	r.target.NumbersUpdates = r.fetched.object["x-osb-updates"] == true
	for _, target := range all {
		if target.Service == r.target.Service {
			r.target.Plans = append(r.target.Plans, PlanVersion{target.Plan, target.Version})
		}
	}
	for _, target := range all {
		if target.Plan != r.target.Plan && (r.target.other.Plan == "" || target.Service == r.target.Service) {
			r.target.other = target.Pair
			if target.Service == r.target.Service {
				break
			}
		}
	}
	return nil
}

// find returns the index of the plan that the Options name, or -1.
func (r *Runner) find(all []Target) int {
	if r.options.Plan == "" {
		for at, target := range all {
			if target.Bindable {
				return at
			}
		}
		return 0
	}
	for at, target := range all {
		ofService := r.options.Service == target.ServiceName || r.options.Service == target.Service
		if ofService && (r.options.Plan == target.PlanName || r.options.Plan == target.Plan) {
			return at
		}
	}
	return -1
}

func targetsOf(service object) (all []Target) {
	flag := func(of object, member string) bool { return of[member] == true }
	for _, plan := range plansOf(service) {
		it := Target{
			Pair:        Pair{textIn(service, "id"), textIn(plan, "id")},
			ServiceName: textIn(service, "name"), PlanName: textIn(plan, "name"), Bindable: flag(service, "bindable"),
			InstancesRetrievable: flag(service, "instances_retrievable"),
			BindingsRetrievable:  flag(service, "bindings_retrievable"),
			Updateable:           flag(service, "plan_updateable"), Version: versionIn(plan[maintenanceMember]),
		}
		if of, has := plan["bindable"].(bool); has {
			it.Bindable = of
		}
		if of, has := plan["plan_updateable"].(bool); has {
			it.Updateable = of
		}
		all = append(all, it)
	}
	return all
}

// objectIn returns the object that a text of JSON is, or nil.
func objectIn(text []byte) (read object) {
	if json.Unmarshal(text, &read) != nil {
		return nil
	}
	return read
}

func text(value any) string {
	bytes, err := json.Marshal(value)
	if err != nil {
		panic(err) // values of this package are JSON
	}
	return string(bytes)
}
