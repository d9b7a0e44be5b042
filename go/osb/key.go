package osb

// A Key names an instance, or a binding of an instance: a binding's id says nothing without that of its instance.
type Key struct {
	Instance  ID
	Binding   ID // the zero ID for an instance
	IsBinding bool
}

// InstanceKey is the key of an instance.
func InstanceKey(instance ID) Key { return Key{Instance: instance} }

// BindingKey is the key of a binding of an instance.
func BindingKey(instance, binding ID) Key {
	return Key{Instance: instance, Binding: binding, IsBinding: true}
}

// KeyOfTexts is the key that the texts of ids name (IDOfText): that of an instance if the binding's is empty.
//
// Errors: those of IDOfText.
func KeyOfTexts(instance, binding string) (key Key, err error) {
	if key.Instance, err = IDOfText(instance); err != nil || binding == "" {
		return key, err
	}
	key.IsBinding = true
	key.Binding, err = IDOfText(binding)
	return key, err
}

// ID is the number that stands in the requests of the key: that of the instance, or of the binding.
func (k Key) ID() ID {
	if k.IsBinding {
		return k.Binding
	}
	return k.Instance
}

// String is the number of the instance as a GUID, and of a binding that of its instance, a slash, and its own.
func (k Key) String() string {
	if k.IsBinding {
		return k.Instance.String() + "/" + k.Binding.String()
	}
	return k.Instance.String()
}
