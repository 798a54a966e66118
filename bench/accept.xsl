<?xml version="1.0" encoding="UTF-8"?>
<!-- Accepts insertions and deletions of text alone, as a short stylesheet does: what bench/plot measures by xsltproc. -->
<xsl:stylesheet version="1.0" xmlns:xsl="http://www.w3.org/1999/XSL/Transform"
    xmlns:w="http://schemas.openxmlformats.org/wordprocessingml/2006/main">
  <xsl:template match="@*|node()">
    <xsl:copy><xsl:apply-templates select="@*|node()"/></xsl:copy>
  </xsl:template>
  <xsl:template match="w:ins"><xsl:apply-templates/></xsl:template>
  <xsl:template match="w:del"/>
</xsl:stylesheet>
