"""Packages in one XML file (Flat OPC) and .docx files, each made of the other: what flatopc does, and redline-docx."""
