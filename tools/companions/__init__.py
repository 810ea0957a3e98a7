"""What the companions of `rast` share. They claim nothing: `rast` judges, these only show."""
