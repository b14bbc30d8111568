package keys

import "sort"

// IDs returns the access keys, in order.
func (f *File) IDs() []string {
	f.mu.Lock()
	defer f.mu.Unlock()
	f.refresh()
	var ids []string
	for id := range f.keys {
		if !f.isOut {
			ids = append(ids, id)
		}
	}
	sort.Strings(ids)
	return ids
}
