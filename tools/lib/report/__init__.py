"""The page of `report`: `cut_sets` makes the section of an observer's cut sets, `page` puts the parts together. Not proved."""
