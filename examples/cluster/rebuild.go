package main

// rebuild gives the bytes of a fragment by its recipe, and how many fragments it read. Sources that can't be read are named as
// missing when it asks again, until there is a recipe without them, or none at all.
func rebuild(book *Book, nodes *Nodes, stripe, fragment int, missing []int) ([]byte, int, error) {
	for {
		homes, recipe, err := book.Recipe(stripe, fragment, missing)
		if err != nil {
			return nil, 0, err
		}
		found, failed := nodes.ReadAll(stripe, homes)
		if len(failed) == 0 {
			var row []byte
			var sources [][]byte
			for _, source := range recipe {
				row, sources = append(row, source.Coefficient), append(sources, found[int(source.Fragment)])
			}
			return combine([][]byte{row}, sources)[0], len(sources), nil
		}
		missing = append(missing, failed...)
	}
}
