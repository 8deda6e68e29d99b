<?xml version="1.0"?>
<!-- What stands in a page. -->
<xsl:stylesheet version="1.0" xmlns:xsl="http://www.w3.org/1999/XSL/Transform">
  <xsl:template match="p"><p><xsl:apply-templates/></p></xsl:template>
  <xsl:template match="code"><pre><xsl:value-of select="."/></pre></xsl:template>
  <xsl:template match="term"><b><xsl:apply-templates/></b></xsl:template>
  <xsl:template match="note"><b>Note: </b><xsl:apply-templates/></xsl:template>
  <xsl:template match="list"><ul><xsl:apply-templates/></ul></xsl:template>
  <xsl:template match="item"><li><xsl:apply-templates/></li></xsl:template>

  <xsl:template match="section">
    <h2 id="{@id}"><xsl:value-of select="@title"/></h2>
    <xsl:apply-templates/>
  </xsl:template>

  <xsl:template match="see">
    <a href="{@page}.html"><xsl:value-of select="key('page', @page)/@title"/></a>
  </xsl:template>
</xsl:stylesheet>
