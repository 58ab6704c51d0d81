"""How tools/show shows a certificate to a person: proofs as trees, models as tables, pictures and graphs."""
